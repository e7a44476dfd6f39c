"""Tests `health`: each check good and bad, and its status."""
import os
import shutil
import ssl
import subprocess
import threading
import time
from argparse import Namespace
from collections.abc import Iterator
from contextlib import contextmanager
from http.server import BaseHTTPRequestHandler, ThreadingHTTPServer
from pathlib import Path

import pytest
from made_project import SETTINGS, MadeProject
from small_project import tools

from bsched_files import counts
from bsched_files.copies import moment_of
from bsched_files.findings import Finding, Level, read_findings
from bsched_tools import __main__ as main
from bsched_tools import health
from bsched_tools.projects import Project


class Bridge(BaseHTTPRequestHandler):
    """Answers as a bridge does that is asked for its configuration."""

    url = ""

    def do_GET(self) -> None:
        """Answers."""
        is_known = self.path.endswith("/get_project_config.php")
        body = f"<project_config><master_url>{self.url}</master_url></project_config>".encode()
        self.send_response(200 if is_known else 404)
        self.send_header("content-length", str(len(body)))
        self.end_headers()
        self.wfile.write(body)

    def log_message(self, *_args: object) -> None:
        """Prints nothing."""


@contextmanager
def served(port: int, url: str, context: ssl.SSLContext | None = None) -> Iterator[int]:
    """Serves a bridge with this URL, and yields its port."""
    handler = type("Handler", (Bridge,), {"url": url})
    server = ThreadingHTTPServer(("127.0.0.1", port), handler)
    if context is not None:
        server.socket = context.wrap_socket(server.socket, server_side=True)
    thread = threading.Thread(target=server.serve_forever, daemon=True)
    thread.start()
    try:
        yield server.server_port
    finally:
        server.shutdown()
        thread.join(10)
        server.server_close()


@pytest.fixture
def made(tmp_path: Path, monkeypatch: pytest.MonkeyPatch) -> Iterator[MadeProject]:
    """Makes a project that is served, with a copy. A stand-in of systemd says that all is well."""
    states = {"ActiveState": "active", "Result": "success"}
    monkeypatch.setattr(health, "shown_by_systemd", lambda _unit, key: states[key])
    project = MadeProject(tmp_path)
    project.serve()
    assert project.tools("copy")[0] == 0
    yield project
    project.end()


def found(made: MadeProject) -> dict[str, Finding]:
    """Returns the findings by their checks."""
    project = Project(made.folder)
    return {one.check: one for one in health.findings_of(project, project.units())}


def with_bridge(made: MadeProject, url: str) -> None:
    """Gives the project the settings of a bridge."""
    (made.folder / "bridge").mkdir(exist_ok=True)
    (made.folder / "bridge" / "bridge.toml").write_text(f'name = "Sums"\nurl = "{url}"\n')


def test_all_is_good(made: MadeProject) -> None:
    port = Project(made.folder).port("BRIDGE_PORT")
    url = f"http://127.0.0.1:{port}/project/"
    with_bridge(made, url)
    with served(port, url):
        findings = found(made)
    free = findings.pop("disk")  # that of this machine
    assert {one.check: one.level for one in findings.values()} == dict.fromkeys(
        ("scheduler", "bridge", "url", "tick", "copy", "limits"), Level.GOOD
    )
    assert "GB" in free.text


def test_a_project_without_a_bridge(made: MadeProject) -> None:
    assert found(made).keys() == {"scheduler", "tick", "copy", "limits", "disk"}


def test_a_scheduler_that_does_not_run(made: MadeProject) -> None:
    made.end()
    finding = found(made)["scheduler"]
    assert finding.level is Level.CRITICAL and "Connection refused" in finding.text


def test_the_scheduler_of_another_project(made: MadeProject) -> None:
    (made.folder / "settings.toml").write_text(SETTINGS.replace("change-this-key", "another-key"))
    finding = found(made)["scheduler"]
    assert finding.level is Level.CRITICAL and "refuses the operator's key" in finding.text


def test_a_port_that_something_else_has(made: MadeProject) -> None:
    made.end()
    with served(made.port, ""):
        assert found(made)["scheduler"].level is Level.CRITICAL


def test_the_bridge_of_another_project(made: MadeProject) -> None:
    port = Project(made.folder).port("BRIDGE_PORT")
    with_bridge(made, f"http://127.0.0.1:{port}/")
    assert "Connection refused" in found(made)["bridge"].text
    with served(port, "http://others.example/"):
        findings = found(made)
    assert "is not this project" in findings["bridge"].text and findings["url"].level is Level.CRITICAL


def test_certificates(made: MadeProject, tmp_path: Path, monkeypatch: pytest.MonkeyPatch) -> None:
    """One that nobody knows, one for 30 days, and one for 2 days."""
    for days, level, text in ((30, Level.GOOD, "valid for 29 days"), (2, Level.CRITICAL, "valid for 1 days")):
        command = ["openssl", "req", "-x509", "-newkey", "rsa:2048", "-nodes", "-days", str(days)]
        command += ["-subj", "/CN=localhost", "-addext", "subjectAltName=DNS:localhost"]
        command += ["-keyout", str(tmp_path / "key"), "-out", str(tmp_path / "pem")]
        subprocess.run(command, check=True, capture_output=True)
        context = ssl.SSLContext(ssl.PROTOCOL_TLS_SERVER)
        context.load_cert_chain(tmp_path / "pem", tmp_path / "key")
        with served(0, "", context) as port:
            with_bridge(made, f"https://localhost:{port}/")
            assert "its certificate is not valid: self-signed" in found(made)["certificate"].text
            monkeypatch.setenv("SSL_CERT_FILE", str(tmp_path / "pem"))
            finding = found(made)["certificate"]
            assert finding.level is level and text in finding.text
            monkeypatch.delenv("SSL_CERT_FILE")


@pytest.mark.parametrize(
    "states, level, text",
    [
        (
            {"ActiveState": "inactive", "Result": "success"},
            Level.CRITICAL,
            "systemctl enable --now bsched-tick@sums.timer",
        ),
        ({"ActiveState": "active", "Result": "exit-code"}, Level.WARNING, "journalctl -u bsched-tick@sums"),
        ({"ActiveState": None, "Result": None}, Level.UNKNOWN, "ask as root"),
    ],
)
def test_ticks(
    made: MadeProject, monkeypatch: pytest.MonkeyPatch, states: dict[str, str | None], level: Level, text: str
) -> None:
    monkeypatch.setattr(health, "shown_by_systemd", lambda _unit, key: states[key])
    finding = found(made)["tick"]
    assert finding.level is level and text in finding.text


@pytest.mark.parametrize("minutes, level", [(3, Level.GOOD), (15, Level.WARNING), (45, Level.CRITICAL)])
def test_ticks_if_systemd_does_not_answer(
    made: MadeProject, tmp_path: Path, monkeypatch: pytest.MonkeyPatch, minutes: int, level: Level
) -> None:
    monkeypatch.setattr(health, "shown_by_systemd", lambda _unit, _key: None)
    monkeypatch.setattr("bsched_files.timers.STAMPS", tmp_path)
    stamp = tmp_path / "stamp-bsched-tick@sums.timer"
    stamp.touch()
    os.utime(stamp, (time.time() - 60 * minutes,) * 2)
    finding = found(made)["tick"]
    assert finding.level is level and f"{minutes} minutes ago" in finding.text


@pytest.mark.parametrize("hours, level", [(2, Level.GOOD), (4, Level.WARNING), (25, Level.CRITICAL)])
def test_old_copies(made: MadeProject, hours: int, level: Level) -> None:
    (copy,) = (made.folder / "copies").iterdir()
    moment = time.strftime("%Y%m%dT%H%M%S.000Z", time.gmtime(time.time() - 3600 * hours))
    copy.rename(copy.with_name(f"project-{moment}.db"))
    assert found(made)["copy"].level is level
    copy.with_name(f"project-{moment}.db").unlink()
    assert "there is none" in found(made)["copy"].text


def test_a_table_that_is_nearly_full(made: MadeProject, monkeypatch: pytest.MonkeyPatch) -> None:
    monkeypatch.setitem(counts.MOST, "unit", 22)
    finding = found(made)["limits"]
    assert finding.level is Level.WARNING and finding.text.startswith("20 of 22 workunits are used")
    monkeypatch.setitem(counts.MOST, "unit", 20)
    assert found(made)["limits"].level is Level.CRITICAL


def test_a_disk_that_is_nearly_full(made: MadeProject, monkeypatch: pytest.MonkeyPatch) -> None:
    usage = type("Usage", (), {"free": 2 * 10**9, "total": 100 * 10**9})
    monkeypatch.setattr("bsched_tools.health.shutil.disk_usage", lambda _folder: usage)
    finding = found(made)["disk"]
    assert finding.level is Level.CRITICAL and "2.0 GB of 100.0 GB" in finding.text


def test_a_user_who_may_not_see_the_copies(made: MadeProject, monkeypatch: pytest.MonkeyPatch) -> None:
    """Members of the group get what they may see, and for the rest a line that says who may."""

    def refused(*_args: object) -> None:
        raise PermissionError(13, "Permission denied", "/var/backups/bsched/sums")

    monkeypatch.setattr(health, "copies_in", refused)
    findings = found(made)
    for check in ("copy", "limits", "work"):
        assert findings[check].level is Level.UNKNOWN
        assert findings[check].text == "/var/backups/bsched/sums: Permission denied: ask as root"
    assert findings["scheduler"].level is Level.GOOD


def test_the_command(made: MadeProject) -> None:
    made.end()
    status, output, fault = made.tools("health")
    assert (status, fault) == (2, "") and output.splitlines()[0].startswith("critical  scheduler    port ")


# ---- For the bridge


def test_what_the_bridge_reads(made: MadeProject) -> None:
    (copy,) = (made.folder / "copies").iterdir()
    older = copy.with_name("project-20260101T000000.000Z.db")
    shutil.copy(copy, older)
    before = int(time.time())
    assert made.tools("health")[2] == ""
    path = made.folder / "units" / "findings.json"
    kept = read_findings(path)
    assert kept is not None and before <= kept.moment <= time.time()
    levels = {one.check: one.level for one in kept.findings}
    assert {levels[name] for name in ("scheduler", "copy", "limits")} == {Level.GOOD}
    assert next(one.text for one in kept.findings if one.check == "copy").startswith("the newest one is ")
    assert (kept.copies, kept.newest_copy, kept.oldest_copy) == (2, moment_of(copy), 1_767_225_600)
    assert path.stat().st_mode & 0o777 == 0o600
    for one in (copy, older):
        one.unlink()
    made.tools("health")
    kept = read_findings(path)
    assert kept is not None and (kept.copies, kept.newest_copy, kept.oldest_copy) == (0, None, None)


def test_findings_that_can_not_be_kept(made: MadeProject) -> None:
    """They are printed all the same, and the status stays."""
    made.end()
    (made.folder / "units").write_text("no folder")
    status, output, fault = made.tools("health")
    assert status == 2 and output.startswith("critical  scheduler")
    assert fault.count("\n") == 1 and "the bridge's board does not show this: " in fault


def test_settings_that_can_not_be_read(made: MadeProject) -> None:
    """They are a critical finding, and the other checks go on."""
    (made.folder / "units.toml").write_text("[copy\n")
    status, output, fault = made.tools("health")
    assert (status, fault) == (2, "") and "units.toml: is not TOML" in output.splitlines()[0]
    assert "good      scheduler" in output


def test_a_project_that_is_none(tmp_path: Path) -> None:
    """A monitor gets the status of what is unknown."""
    status, output, fault = tools("health", "--project", f"{tmp_path}/none/")
    assert (status, output) == (3, "") and "it is no project of bsched-project" in fault


def test_another_user_keeps_nothing(made: MadeProject, monkeypatch: pytest.MonkeyPatch) -> None:
    """Whoever is in the project's group may look, and may not write."""
    monkeypatch.setattr("bsched_tools.__main__.os.geteuid", lambda: made.folder.stat().st_uid + 1)
    monkeypatch.setattr(Project, "become_owner", lambda _project: None)
    args = Namespace(project=str(made.folder), mail=None, command="health")
    assert main.health(args) in (Level.GOOD, Level.WARNING, Level.CRITICAL)
    assert not (made.folder / "units").exists()


@pytest.mark.parametrize(
    "state, advice",
    [
        ("active", "`systemctl start bsched-copy@sums` makes one now"),
        ("inactive", "`systemctl enable --now bsched-copy@sums.timer`"),
        (None, "`systemctl enable --now bsched-copy@sums.timer`"),
    ],
)
def test_the_advice_fits_what_is_active(
    made: MadeProject, monkeypatch: pytest.MonkeyPatch, state: str | None, advice: str
) -> None:
    monkeypatch.setattr(health, "shown_by_systemd", lambda _unit, _key: state)
    for copy in (made.folder / "copies").iterdir():
        copy.unlink()
    assert found(made)["copy"].text == f"there is none in {made.folder / 'copies'}: {advice}"


@pytest.mark.parametrize("hours, command", [(1, "start bsched-copy@sums`"), (3, "enable --now bsched-copy@")])
def test_the_advice_if_systemd_does_not_answer(
    made: MadeProject, tmp_path: Path, monkeypatch: pytest.MonkeyPatch, hours: int, command: str
) -> None:
    """The timer of copies elapses each hour, so a file that is older is that of a timer that was stopped."""
    monkeypatch.setattr(health, "shown_by_systemd", lambda _unit, _key: None)
    monkeypatch.setattr("bsched_files.timers.STAMPS", tmp_path)
    stamp = tmp_path / "stamp-bsched-copy@sums.timer"
    stamp.touch()
    os.utime(stamp, (time.time() - 3600 * hours,) * 2)
    for copy in (made.folder / "copies").iterdir():
        copy.unlink()
    assert f"`systemctl {command}" in found(made)["copy"].text
