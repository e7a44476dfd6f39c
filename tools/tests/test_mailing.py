"""Tests the mail about a project's health: mailers that are missing, fail or hang, and a full disk."""
import json
import os
from argparse import Namespace
from collections.abc import Callable, Iterator
from pathlib import Path

import pytest
from made_project import MadeProject

from bsched_files.findings import Finding, Level, read_findings
from bsched_tools import __main__ as main
from bsched_tools import health, mailing
from bsched_tools.projects import Project

TO = "op@sums.example"
NOW = 1_800_000_000
GOOD = [Finding("scheduler", Level.GOOD, "answers")]
BAD = [Finding("scheduler", Level.CRITICAL, "gives no answer")]
WARNED = [Finding("copy", Level.WARNING, "is old")]
MAILERS = ("none", "fails", "hangs", "hangs_after_reading", "leaves_a_child")


@pytest.fixture
def made(tmp_path: Path) -> MadeProject:
    """Makes a project, which nobody serves."""
    return MadeProject(tmp_path)


@pytest.fixture
def mailer(tmp_path: Path, monkeypatch: pytest.MonkeyPatch) -> Callable[[str], Path]:
    """Returns what chooses a mailer. A good one writes the mails into a file, which it returns."""
    path, sent = tmp_path / "sendmail", tmp_path / "sent"
    monkeypatch.setattr(mailing, "SENDMAIL", path)
    scripts = {
        "good": f"cat >> {sent}",
        "fails": "echo 'no route\nto it' >&2; exit 75",
        "takes_it_and_fails": f"cat >> {sent}; exit 75",
        "hangs": "exec sleep 3600",
        "hangs_after_reading": f"cat >> {sent}.lost; sleep 3600",
        "leaves_a_child": f"cat >> {sent}; sleep 3600 & exit 0",
    }

    def choose(name: str) -> Path:
        path.unlink(missing_ok=True)
        if name in scripts:
            path.write_text(f"#!/bin/bash\n{scripts[name]}\n")
            path.chmod(0o755)
        monkeypatch.setattr(mailing, "SECONDS", 1.0 if name.startswith("hangs") else 60.0)
        return sent

    return choose


@pytest.fixture
def full_disk(made: MadeProject, small_disk: Path) -> Callable[[], None]:
    """Gives the project's folder `units` a small disk of its own. Returns what fills it."""
    (made.folder / "units").symlink_to(small_disk)

    def fill() -> None:
        with suppress_full(), (small_disk / "filler").open("wb", buffering=0) as file:
            while True:
                file.write(bytes(4096))

    return fill


class suppress_full:
    """Ends a block when the disk is full."""

    def __enter__(self) -> None:
        """Begins."""

    def __exit__(self, kind: object, error: object, _trace: object) -> bool:
        """Takes the fault of a full disk alone."""
        return isinstance(error, OSError) and error.errno == 28


def changes(made: MadeProject, found: list[Finding], now: int = NOW) -> Finding | None:
    """Mails what changed."""
    return mailing.mail_changes(Project(made.folder), found, TO, now)


def mails(sent: Path) -> int:
    """Returns how many mails were taken."""
    return sent.read_text().count("Subject: ") if sent.exists() else 0


def run(made: MadeProject, found: list[Finding], to: str | None, monkeypatch: pytest.MonkeyPatch) -> int:
    """Runs the command while the checks find this, and returns its status."""
    monkeypatch.setattr(main, "findings_of", lambda *_: list(found))
    return main.health(Namespace(project=f"{made.folder}/", mail=to, command="health"))


def test_one_mail_for_a_change(made: MadeProject, mailer: Callable[[str], Path]) -> None:
    """One when it becomes bad, none while it stays so, and one when it is good again."""
    sent = mailer("good")
    assert changes(made, GOOD) is None and not sent.exists()
    for _ in range(2):
        assert changes(made, BAD) is None
        assert sent.read_text() == (
            f"To: {TO}\nSubject: [bsched] sums: critical\n\ncritical  scheduler    gives no answer\n"
        )
    for _ in range(2):
        assert changes(made, GOOD) is None and mails(sent) == 2


@pytest.mark.parametrize("name", MAILERS)
@pytest.mark.parametrize("found", [GOOD, WARNED, BAD], ids=["good", "warning", "critical"])
def test_the_status_is_that_of_the_worst_finding(
    made: MadeProject,
    mailer: Callable[[str], Path],
    monkeypatch: pytest.MonkeyPatch,
    capsys: pytest.CaptureFixture[str],
    name: str,
    found: list[Finding],
) -> None:
    """With a mailer that does not work, and without mail. The board gets the fault, too."""
    mailer(name)
    assert run(made, found, None, monkeypatch) == found[0].level
    assert capsys.readouterr().out == f"{found[0].line}\n"
    is_bad = found is not GOOD and name != "leaves_a_child"
    assert run(made, found, TO, monkeypatch) == (Level.CRITICAL if is_bad else found[0].level)
    lines = capsys.readouterr().out.splitlines()
    kept = read_findings(made.folder / "units" / "findings.json")
    assert kept is not None
    shown = [(one.check, one.level) for one in kept.findings]
    assert shown[0] == (found[0].check, found[0].level)
    assert lines[0] == found[0].line and len(lines) == len(shown) == (2 if is_bad else 1)
    if is_bad:
        assert shown[1] == ("mail", Level.CRITICAL) and lines[1].startswith("critical  mail         /")


@pytest.mark.parametrize(
    "name, text",
    [
        ("none", "sendmail: No such file or directory: install a mailer, such as postfix or msmtp-mta"),
        ("fails", "sendmail: status 75: no route to it"),
        ("hangs", "sendmail: it did not take the mail within 1 seconds"),
    ],
)
def test_a_mail_that_failed_comes_later(
    made: MadeProject, mailer: Callable[[str], Path], name: str, text: str
) -> None:
    """Until then each run says so, and the tries become fewer."""
    mailer(name)
    finding = changes(made, BAD)
    assert finding is not None and (finding.check, finding.level) == ("mail", Level.CRITICAL)
    assert text in finding.text and finding.text.endswith("(tried at 08:00, again from 08:05 UTC)")
    sent = mailer("good")
    assert changes(made, BAD, NOW + 299) == finding and mails(sent) == 0
    assert changes(made, BAD, NOW + 300) is None and mails(sent) == 1
    assert changes(made, BAD, NOW + 301) is None and mails(sent) == 1


def test_a_further_change_is_mailed_at_once(made: MadeProject, mailer: Callable[[str], Path]) -> None:
    mailer("fails")
    assert changes(made, BAD) is not None
    sent = mailer("good")
    assert changes(made, WARNED, NOW + 1) is None and mails(sent) == 1


def test_a_mailer_that_takes_mails_and_fails_gets_few(
    made: MadeProject, mailer: Callable[[str], Path]
) -> None:
    """In a day of runs each ten minutes."""
    sent = mailer("takes_it_and_fails")
    for minutes in range(0, 24 * 60, 10):
        finding = changes(made, BAD, NOW + 60 * minutes)
        assert finding is not None and finding.level is Level.CRITICAL
    assert mails(sent) == 10  # at 0, 10, 20, 40, 80, 160, 320, 640, 1,000 and 1,360 minutes
    assert changes(made, GOOD, NOW + 86_400) is None and mails(sent) == 10


def test_what_the_former_release_kept(made: MadeProject, mailer: Callable[[str], Path]) -> None:
    sent = mailer("good")
    (made.folder / "units").mkdir()
    (made.folder / "units" / "health.json").write_text('{"scheduler": "CRITICAL"}')
    assert changes(made, BAD) is None and mails(sent) == 0
    assert changes(made, GOOD) is None and mails(sent) == 1
    kept = json.loads((made.folder / "units" / "health.json").read_text())
    assert kept == {"format": 2, "mailed": {"scheduler": "GOOD"}, "failure": None}


@pytest.mark.parametrize("text", ["", "[]", "3", '{"format": 2}', '{"format": 9}', "\xff", '{"a": []}'])
def test_a_spoiled_file_of_what_is_kept(made: MadeProject, mailer: Callable[[str], Path], text: str) -> None:
    sent = mailer("good")
    (made.folder / "units").mkdir()
    (made.folder / "units" / "health.json").write_text(text, encoding="latin-1")
    assert changes(made, BAD) is None and mails(sent) == 1
    assert changes(made, BAD) is None and mails(sent) == 1


def test_a_full_disk(
    made: MadeProject,
    mailer: Callable[[str], Path],
    monkeypatch: pytest.MonkeyPatch,
    capsys: pytest.CaptureFixture[str],
    full_disk: Callable[[], None],
) -> None:
    """The mail comes, once, and the board shows what was found, by the room that the files have."""
    sent = mailer("good")
    assert run(made, GOOD, TO, monkeypatch) == 0 and mails(sent) == 0
    assert run(made, WARNED, TO, monkeypatch) == 1 and mails(sent) == 1
    full_disk()
    for _ in range(2):
        assert run(made, BAD, TO, monkeypatch) == 2 and mails(sent) == 2
    assert run(made, WARNED, None, monkeypatch) == 1
    kept = read_findings(made.folder / "units" / "findings.json")
    assert kept is not None and [one.check for one in kept.findings] == ["copy"]
    assert capsys.readouterr().err == ""


def test_a_disk_that_was_full_from_the_beginning(
    made: MadeProject,
    mailer: Callable[[str], Path],
    monkeypatch: pytest.MonkeyPatch,
    capsys: pytest.CaptureFixture[str],
    full_disk: Callable[[], None],
) -> None:
    """Nothing can be kept: the mail says so, and the status is that of the findings."""
    sent = mailer("good")
    full_disk()
    assert run(made, WARNED, None, monkeypatch) == 1
    output = capsys.readouterr()
    assert output.out == f"{WARNED[0].line}\n" and output.err.count("\n") == 1
    assert "the bridge's board does not show this: " in output.err
    assert run(made, BAD, None, monkeypatch) == 2
    assert run(made, WARNED, TO, monkeypatch) == 2 and mails(sent) == 1
    line = capsys.readouterr().out.splitlines()[-1]
    assert line.startswith("critical  mail         ") and "No space left on device" in line
    assert "the next run sends the same mail again" in line


@pytest.fixture(autouse=True)
def no_systemd(monkeypatch: pytest.MonkeyPatch) -> Iterator[None]:
    """A stand-in of systemd says that all is well."""
    monkeypatch.setattr(health, "shown_by_systemd", lambda _unit, key: "active")
    before = os.environ.get("HOME")
    yield
    if before is not None:
        os.environ["HOME"] = before
