"""Tests what the tools say on the machine of a pair that has not the project."""
import socket
from pathlib import Path

import pytest

from bsched_files.faults import Fault
from bsched_tools import projects
from bsched_tools.projects import project_of

LINE = "sums is not on this machine: run this on beta, or see `crm_mon -1`"


@pytest.fixture
def folder(tmp_path: Path, monkeypatch: pytest.MonkeyPatch) -> Path:
    """Makes a machine with the files of a pair and with the empty folder of its project."""
    monkeypatch.setattr(projects, "PROJECTS", tmp_path / "bsched")
    monkeypatch.setattr(socket, "gethostname", lambda: "alpha")
    (tmp_path / "bsched" / "sums").mkdir(parents=True)
    (tmp_path / "bsched-pair" / "sums").mkdir(parents=True)
    words = ["sums", "--machine", "alpha=10.0.0.1,10.0.1.1", "--machine=beta=10.0.0.2,10.0.1.2", "--vote"]
    text = "".join(f"{word}\n" for word in [*words, "gamma=10.0.0.3", "--disk", "/dev/sums"])
    (tmp_path / "bsched-pair" / "sums" / "options").write_text(text)
    return tmp_path / "bsched" / "sums"


def test_a_project_on_the_other_machine(folder: Path) -> None:
    for name in ("sums", str(folder)):
        with pytest.raises(Fault) as raised:
            project_of(name)
        assert str(raised.value) == LINE


def test_a_project_on_this_machine(folder: Path) -> None:
    (folder / "settings.toml").touch()
    assert project_of("sums").folder == folder


def test_other_projects_are_as_before(folder: Path) -> None:
    with pytest.raises(Fault, match="it is no project of bsched-project"):
        project_of("others")
