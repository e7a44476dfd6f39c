"""What gunicorn logs."""
import re
from pathlib import Path

from gunicorn_served import HEAD, exchanged, served
from twin import Twin

SECRETS = ("carl%40sums.example", "5ecre7")
QUERY = "lookup_account.php?email_addr=carl%40sums.example&passwd_hash=5ecre7"


def test_no_log_has_an_address(project: Path, twin: Twin) -> None:
    """gunicorn itself logs the URL of a message with a wrong SCRIPT_NAME, and newer versions log the faults
    of messages that they refuse.
    """
    faulty = f"GET /p/{QUERY} {HEAD}"
    messages = {
        f"{faulty}\r\n": ("200",),
        f"{faulty}SCRIPT_NAME: /elsewhere\r\n\r\n": ("500",),
        # newer versions drop a field whose name has an underscore
        f"{faulty}SCRIPT_NAME: /p/lookup_account.php\r\n\r\n": ("200",),
        f"{faulty}SCRIPT_NAME\r\n\r\n": ("400",),
        f"{faulty}Transfer-Encoding: carl%40sums.example 5ecre7\r\n\r\n": ("500", "501", "400"),
        f"{faulty}Content-Length: carl%40sums.example 5ecre7\r\n\r\n": ("400",),
        f"{faulty}carl%40sums.example 5ecre7: x\r\n\r\n": ("400",),
        f"GET /p/{QUERY}\r\n\r\n": ("400",),
        f"GET /p/{QUERY} HTTP/7.carl%40sums.example\r\n\r\n": ("400",),
        f"{QUERY} /p/ {HEAD}\r\n": ("400",),
    }
    with served(project, twin) as (port, process):
        for message, statuses in messages.items():
            status = exchanged(port, message)[:12].decode()
            assert status.removeprefix("HTTP/1.1 ") in statuses, message
        assert exchanged(port, f"GET /p/ {HEAD}\r\n").startswith(b"HTTP/1.1 200")
        process.terminate()
        log, _ = process.communicate(timeout=60)
    assert "Listening at" in log and not any(secret in log for secret in SECRETS), log
    assert "127.0.0.1" not in log.replace("http://127.0.0.1", ""), log
    assert re.search("gunicorn (could not handle|refused) a message", log), log


def test_the_log_says_when_an_edit_counts(project: Path, twin: Twin) -> None:
    """Lines about what the operator edited are no faults, and are logged all the same."""
    catalogue = project / "catalogue.toml"
    good = catalogue.read_text()
    with served(project, twin) as (port, process):
        for text in (f"{good}[[app]]\nname = 3\n", f'{good}[[app]]\nname = "more"\n'):
            catalogue.write_text(text)
            exchanged(port, f"GET /p/get_project_config.php {HEAD}\r\n")
        process.terminate()
        log, _ = process.communicate(timeout=60)
    fault, counts = "the catalogue stays as it was: ", "the catalogue was read again: 2 applications, "
    assert [line.startswith(fault) for line in log.splitlines() if "the catalogue" in line] == [True, False]
    assert counts in log, log
