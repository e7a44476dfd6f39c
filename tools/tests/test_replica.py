"""Tests what `health` says of the second machine of a pair, by texts of /proc/drbd."""
import os
import time
from pathlib import Path

import pytest
from made_project import MadeProject

from bsched_files.findings import Finding, Level
from bsched_tools import replica
from bsched_tools.projects import Project
from bsched_tools.replica import finding_of, read_replica

HEAD = "version: 8.4.11 (api:1/proto:86-101)\nsrcversion: 0123456789ABCDEF\n"
COUNTS = "    ns:0 nr:0 dw:8 dr:0 al:1 bm:0 lo:0 pe:0 ua:0 ap:0 ep:1 wo:f oos:0\n"
GOOD = " 0: cs:Connected ro:Primary/Secondary ds:UpToDate/UpToDate C r-----\n"
ALONE = " 0: cs:WFConnection ro:Primary/Unknown ds:UpToDate/DUnknown C r-----\n"
SYNC = (
    " 0: cs:SyncSource ro:Primary/Secondary ds:UpToDate/Inconsistent C r-----\n"
    f"{COUNTS}\t[=>..................] sync'ed: 10.2% (920000/1024000)K\n"
    "\tfinish: 0:01:32 speed: 10,000 (10,000) K/sec\n"
)
NOW = 1_800_000_000


@pytest.fixture
def project(tmp_path: Path, monkeypatch: pytest.MonkeyPatch) -> Project:
    """Makes a project on the first disk of DRBD."""
    monkeypatch.setattr(replica, "minor_of", lambda _folder: 0)
    monkeypatch.setattr(replica, "STATES", tmp_path / "drbd")
    monkeypatch.setattr(time, "time", lambda: NOW)
    return Project(MadeProject(tmp_path).folder)


def found(project: Project, text: str, now: int, monkeypatch: pytest.MonkeyPatch) -> Finding:
    """Returns what is found at a moment."""
    replica.STATES.write_text(f"{HEAD}{text}{COUNTS}")
    monkeypatch.setattr(time, "time", lambda: now)
    (finding,) = replica.replica(project, project.units())
    return finding


def test_a_folder_on_another_disk(tmp_path: Path) -> None:
    project = Project(MadeProject(tmp_path).folder)
    assert os.major(tmp_path.stat().st_dev) != replica.MAJOR
    assert list(replica.replica(project, project.units())) == []


def test_one_copy_is_a_warning_and_after_an_hour_critical(
    project: Project, monkeypatch: pytest.MonkeyPatch
) -> None:
    assert found(project, GOOD, NOW, monkeypatch).level is Level.GOOD
    first = found(project, ALONE, NOW, monkeypatch)
    assert first.level is Level.WARNING
    assert "the project has one copy only, since 2027-01-15 08:00 UTC" in first.text
    later = found(project, ALONE, NOW + 3599, monkeypatch)
    assert (later.level, later.text) == (Level.WARNING, first.text)
    assert found(project, ALONE, NOW + 3600, monkeypatch).level is Level.CRITICAL
    # a resync is a warning regardless of how long it takes
    sync = found(project, SYNC, NOW + 7200, monkeypatch)
    assert sync.level is Level.WARNING and "(10.2 %, and 0:01:32 are left)" in sync.text
    assert first.text.partition(";")[2].partition(":")[0] in sync.text
    assert found(project, GOOD, NOW + 7300, monkeypatch).level is Level.GOOD
    again = found(project, ALONE, NOW + 9000, monkeypatch)
    assert again.level is Level.WARNING and "10:30 UTC" in again.text, "the moment is a new one"


@pytest.mark.parametrize("text", ["", "never", "-1", str(NOW + 10**9)])
def test_a_spoiled_moment(project: Project, monkeypatch: pytest.MonkeyPatch, text: str) -> None:
    found(project, ALONE, NOW, monkeypatch)
    (project.work / replica.SINCE).write_text(text)
    assert found(project, ALONE, NOW + 60, monkeypatch).level is Level.WARNING


@pytest.mark.parametrize(
    "state, level, text",
    [
        (GOOD.replace(" C ", " A "), Level.CRITICAL, "DRBD has protocol A"),
        (ALONE.replace("r-----", "s-----"), Level.CRITICAL, "writes wait until the cluster knows"),
        (ALONE.replace("WFConnection", "StandAlone"), Level.CRITICAL, "no longer looks for the other one"),
        (GOOD.replace("UpToDate/", "Diskless/"), Level.CRITICAL, "the disk of this machine is Diskless"),
        (GOOD.replace("/UpToDate", "/Diskless"), Level.WARNING, "the disk of the other machine is Diskless"),
        (GOOD.replace("/UpToDate", "/Outdated"), Level.WARNING, "the disk of the other machine is Outdated"),
        (ALONE.replace("WFConnection", "BrokenPipe"), Level.WARNING, "is not connected (BrokenPipe)"),
        (SYNC.replace("SyncSource", "SyncTarget"), Level.WARNING, "a machine fetches what it lacks"),
        (GOOD.replace("Connected", "VerifyS"), Level.GOOD, "both machines have the project"),
        (GOOD.replace(" 0:", " 1:"), Level.UNKNOWN, "does not say the state of the disk 0"),
        ("", Level.UNKNOWN, "does not say the state of the disk 0"),
        (GOOD.replace("ds:", "xx:"), Level.UNKNOWN, "does not say the state of the disk 0"),
    ],
)
def test_states(
    project: Project, monkeypatch: pytest.MonkeyPatch, state: str, level: Level, text: str
) -> None:
    finding = found(project, state, NOW, monkeypatch)
    assert finding.level is level and text in finding.text and "\n" not in finding.text


def test_the_disk_is_the_one_with_the_number() -> None:
    both = HEAD + GOOD + COUNTS + ALONE.replace(" 0:", "11:") + COUNTS
    first, second, none = (read_replica(both, minor) for minor in (0, 11, 1))
    assert first is not None and first.connection == "Connected"
    assert second is not None and second.connection == "WFConnection"
    assert none is None


def test_a_finding_needs_no_moment() -> None:
    state = read_replica(GOOD, 0)
    assert state is not None and finding_of(state, None).level is Level.GOOD
