"""Commands of the bridge, and faults of its settings with their lines."""
import re
import shutil
import subprocess
import sys
import tomllib
from pathlib import Path

import pytest
from bridges import ENVIRONMENT
from ordering import ordered
from served import free_port
from twin import Twin

from bsched_files.project_settings import AccountSettings, Address, HostRules, read_settings
from bsched_files.toml_entries import OperatorFault


def test_settings(project: Path) -> None:
    settings = read_settings(project / "bridge.toml")
    assert settings.listen == Address("127.0.0.1", 8081)
    assert settings.path == "/p/"
    assert settings.state == project / "bridge.db"
    assert (settings.threads, settings.answer_seconds, settings.retry_delay) == (8, 15, 60)
    assert settings.host_rules == HostRules(20, frozenset())
    assert (settings.accounts, settings.welcome, settings.counts) == (None, None, None)


def test_settings_of_accounts(project: Path) -> None:
    (project / "terms.txt").write_text("Be kind.\n")
    with (project / "bridge.toml").open("a") as file:
        file.write(
            'most_hosts = 3\nbarred = ["ann-key"]\n\n[accounts]\nmost_a_day = 100\nmost_from_address = 5\n'
            'address_field = "X-Real-IP"\nnames = "told"\nterms = "terms.txt"\n'
        )
    settings = read_settings(project / "bridge.toml")
    assert settings.host_rules == HostRules(3, frozenset({"ann-key"}))
    assert settings.accounts == AccountSettings(100, 5, "X-Real-IP", True, "Be kind.\n")


@pytest.mark.parametrize(
    "url, field, is_without",
    [
        ("https://sums.example/p/", "", True),
        ("https://sums.example/p/", 'address_field = "X-Real-IP"', False),
        ("http://127.0.0.1:8081/p/", "", False),
    ],
)
def test_a_proxy_that_tells_no_addresses(project: Path, url: str, field: str, is_without: bool) -> None:
    path = project / "bridge.toml"
    assert not read_settings(path).is_without_addresses
    text = path.read_text().replace("http://127.0.0.1:8081/p/", url)
    path.write_text(f"{text}[accounts]\nmost_a_day = 1\n{field}\n")
    assert read_settings(path).is_without_addresses is is_without


def test_accounts_are_imported_with_the_operators_key(project: Path) -> None:
    path = project / "bridge.toml"
    text = path.read_text().replace('operator_key = "change-this-key"\n', "")
    path.write_text(text + "[accounts]\nmost_a_day = 1\n")
    with pytest.raises(OperatorFault, match=r"line 7: \[accounts\] needs operator_key"):
        read_settings(path)


@pytest.mark.parametrize(
    "url, is_good",
    [
        ("https://sums.example/p/", True),
        ("http://localhost/p/", True),
        ("http://[::1]/p/", True),
        ("http://127.1.2.3:80/p/", True),
        ("http://sums.example/p/", False),
        ("http://10.0.0.1/p/", False),
    ],
)
def test_passwords_are_sent_over_tls(project: Path, url: str, is_good: bool) -> None:
    path = project / "bridge.toml"
    text = path.read_text().replace("http://127.0.0.1:8081/p/", url)
    path.write_text(text + "[accounts]\nmost_a_day = 1\n")
    if is_good:
        assert read_settings(path).accounts
        return
    with pytest.raises(OperatorFault, match=r"line 8: \[accounts\] needs a url with https"):
        read_settings(path)


SETTINGS_FAULTS = [
    ('"Sums"', "Sums", None, "is not TOML.*line 1"),
    ('name = "Sums"', "", 1, "name is missing"),
    ("catalogue =", "catalog =", 6, "catalog is not known here: is catalogue meant, which is missing"),
    ('"Sums"', "1", 1, "name is not a text in quotes"),
    ('"bridge.db"', '"bridge.db"\ncontact = "a\\nb"', 8, "contact is not one line"),
    ('"Sums"', '" "', 1, "name is empty"),
    ("http://127.0.0.1:8081/p/", "127.0.0.1:8081/p/", 2, "url is not http"),
    ("http://127.0.0.1:8081/p/", "ftp://x/", 2, "url is not http"),
    ("http://127.0.0.1:8081/p/", "http://x/?a", 2, "url is not http"),
    ("http://127.0.0.1:8081/p/", "http://x:99999/", 2, "url is not http"),
    ("http://127.0.0.1:8081/p/", "http://x/p", 2, "does not end with a slash"),
    ("http://127.0.0.1:8081/p/", "http://X/", 2, "capital letters"),
    ("http://127.0.0.1:8081/p/", "http://x/<a/", 2, "must be escaped"),
    ("http://127.0.0.1:8081/p/", "http://x/%20/", 2, "must be escaped"),
    ('listen = "127.0.0.1:8081"', 'listen = "127.0.0.1"', 3, "listen is not HOST:PORT"),
    ('"127.0.0.1:8080"', '"127.0.0.1:0"', 4, "scheduler is not HOST:PORT"),
    ("change-this-key", "a key", 5, "operator_key is not 1 to 64"),
    ("catalogue.toml", "none.toml", 6, "none.toml does not exist"),
    ('"bridge.db"', '"bridge.db"\nthreads = 0', 8, "threads is not within 1 to 64"),
    ('"bridge.db"', '"bridge.db"\nthreads = true', 8, "threads is not a whole number"),
    ('"bridge.db"', '"bridge.db"\nthread = 1', 8, "thread is not known here"),
    ('"bridge.db"', '"bridge.db"\n[more]\nx = 1', 8, "more is not known here"),
    ('"bridge.db"', '"bridge.db"\nmost_hosts = 0', 8, "most_hosts is not within 1"),
    ('"bridge.db"', '"bridge.db"\nbarred = "ann-key"', 8, "barred is not a list of words"),
    ('"bridge.db"', '"bridge.db"\nbarred = ["ann key"]', 8, "barred: 'ann key' is not 1 to 64"),
    ('"bridge.db"', '"bridge.db"\nwelcome = "none.txt"', 8, "welcome: .*none.txt does not exist"),
    ('"bridge.db"', '"bridge.db"\nwelcome = "files"', 8, "welcome: .*files: Is a directory"),
    ('"bridge.db"', '"bridge.db"\naccounts = 1', 8, r"accounts is not a table \[accounts\]"),
    ('"bridge.db"', '"bridge.db"\n\n[accounts]\n', 9, "most_a_day is missing"),
    ('"bridge.db"', '"bridge.db"\n[accounts]\nmost_a_day = 0', 9, "most_a_day is not within 1 to 10000"),
    ('"bridge.db"', '"bridge.db"\n[accounts]\nmost_a_day = 1\nnames = "any"', 10, 'names is not "told" or'),
    ('"bridge.db"', '"bridge.db"\n[accounts]\nmost_a_day = 1\nname = "told"', 10, "name is not known here"),
    ('"bridge.db"', '"bridge.db"\n[accounts]\nmost_a_day = 1\nterms = "none"', 10, "does not exist"),
    (
        '"bridge.db"',
        '"bridge.db"\n[accounts]\nmost_a_day = 1\naddress_field = "X Y"',
        10,
        "is not the name of",
    ),
    (
        '"bridge.db"',
        '"bridge.db"\n[accounts]\nmost_a_day = 1\naddress_field = "x-forwarded-for"',
        10,
        "address_field: a client can write into",
    ),
]


@pytest.mark.parametrize("old, new, line, what", SETTINGS_FAULTS)
def test_faulty_settings(project: Path, old: str, new: str, line: int | None, what: str) -> None:
    path = project / "bridge.toml"
    path.write_text(path.read_text().replace(old, new, 1))
    with pytest.raises(OperatorFault) as raised:
        read_settings(path)
    assert re.search(what, str(raised.value))
    assert str(raised.value).startswith(f"{path}: " if line is None else f"{path}: line {line}: ")


def test_settings_that_can_not_be_read(project: Path) -> None:
    with pytest.raises(OperatorFault, match="No such file"):
        read_settings(project / "none.toml")
    (project / "bridge.toml").write_bytes(b'name = "Sums"\n# \xff\n')
    with pytest.raises(OperatorFault, match="line 2: is not UTF-8"):
        read_settings(project / "bridge.toml")


def test_settings_are_printed(project: Path) -> None:
    completed = ordered(
        project, "--config", "bridge.toml", "--print", "url", "most_result_bytes", "most_upload"
    )
    url = next(line for line in (project / "bridge.toml").read_text().splitlines() if line.startswith("url"))
    assert completed.stdout.splitlines() == [url.partition('"')[2].partition('"')[0], "0", "16777216"]
    completed = ordered(project, "--config", "none.toml", "--print", "url")
    assert (completed.returncode, completed.stderr) == (
        1,
        "bsched-bridge: none.toml: No such file or directory\n",
    )
    assert ordered(project, "--config", "bridge.toml", "--print", "operator_key").returncode == 64


def test_ports_are_set(project: Path) -> None:
    folder = project / "sums"
    folder.mkdir()
    (folder / "environment").write_text("PORT=8080\nBRIDGE_PORT=8081\n")
    (folder / "bridge").mkdir()
    shutil.copy(project / "bridge.toml", folder / "bridge")
    words = "--config", "bridge.toml", "--set-ports"
    assert ordered(folder / "bridge", *words, "9001", "9002").returncode == 0
    assert (folder / "environment").read_text() == "PORT=9001\nBRIDGE_PORT=9002\n"
    settings = tomllib.loads((folder / "bridge" / "bridge.toml").read_text())
    assert (settings["scheduler"], settings["listen"]) == ("127.0.0.1:9001", "127.0.0.1:9002")
    for port in ("0", "65536", "x"):
        completed = ordered(folder / "bridge", *words, "9001", port)
        assert completed.returncode == 64 and "is no port" in completed.stderr
    completed = ordered(project, *words, "9001", "9002")
    assert completed.returncode == 1 and "environment: No such file or directory" in completed.stderr


def at_port(project: Path, port: int) -> None:
    """Gives the bridge the port of a scheduler."""
    path = project / "bridge.toml"
    path.write_text(re.sub("127.0.0.1:8080", f"127.0.0.1:{port}", path.read_text()))


def test_the_check_asks_the_scheduler(project: Path, twin: Twin) -> None:
    at_port(project, twin.address.port)
    completed = ordered(project, "--config", "bridge.toml", "--check")
    place = f"the scheduler at 127.0.0.1:{twin.address.port}"
    assert (completed.returncode, completed.stdout.splitlines()[1:]) == (0, [f"{place} knows operator_key"])
    path = project / "bridge.toml"
    path.write_text(path.read_text().replace("change-this-key", "another-key"))
    completed = ordered(project, "--config", "bridge.toml", "--check")
    fault = f"{place} refuses operator_key: it is that of another project, or the key is another one"
    assert (completed.returncode, completed.stderr) == (1, f"bsched-bridge: bridge.toml: line 5: {fault}\n")


def test_the_command_line(project: Path) -> None:
    at_port(project, free_port())
    completed = ordered(project, "--config", "bridge.toml", "--check")
    lines = completed.stdout.splitlines()
    assert (completed.returncode, lines[0]) == (0, "good: 1 applications, 1 versions, 1 workunits")
    assert lines[1].endswith("so operator_key was not compared") and "gives no answer" in lines[1]
    with (project / "bridge.toml").open("a") as file:
        file.write("[accounts]\nmost_a_day = 7\n")
    completed = ordered(project, "--config", "bridge.toml", "--check")
    assert completed.stdout.splitlines()[1] == "volunteers make accounts: at most 7 a day, 3 from one address"
    (project / "catalogue.toml").write_text("x = 1\n")
    completed = ordered(project, "--config", "bridge.toml")
    assert (completed.returncode, completed.stderr) == (
        1,
        "bsched-bridge: catalogue.toml: line 1: code_sign_key is missing\n",
    )
    faulty: list[list[str]] = [[], ["nothing"], ["sign", "files/two.txt"], ["--other"]]
    assert {ordered(project, *words).returncode for words in faulty} == {64}


# ---- What root does


def test_the_version() -> None:
    command = [sys.executable, "-m", "bsched_bridge", "--version"]
    completed = subprocess.run(command, capture_output=True, text=True, timeout=600, env=ENVIRONMENT)
    assert re.fullmatch(r"bsched-bridge \d+\.\d+\.\d+\n", completed.stdout)
