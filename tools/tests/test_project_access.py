"""Who may use a project, and a copy for one look."""
import os
from pathlib import Path

import pytest
from made_project import SETTINGS
from work_project import WorkProject
from work_tried import run_here

from bsched_files.faults import Fault
from bsched_tools import project_access, projects


# ---- Mistakes: each gets one clear line, and changes nothing


def test_who_may_use_a_project(tmp_path: Path, monkeypatch: pytest.MonkeyPatch) -> None:
    project = projects.Project(tmp_path)
    project.settings.write_text(SETTINGS)
    project_access.check_member(project)
    monkeypatch.setattr(os, "geteuid", lambda: 12345)
    monkeypatch.setattr(os, "getegid", lambda: 12345)
    monkeypatch.setattr(os, "getgroups", lambda: [12345])
    with pytest.raises(Fault, match="only root and members of the group bsched may use this project"):
        project_access.check_member(project)
    monkeypatch.setattr(os, "getgroups", lambda: [12345, project.settings.stat().st_gid])
    project_access.check_member(project)


@pytest.mark.skipif(os.geteuid() != 0, reason="only root can become another user")
@pytest.mark.parametrize(
    "command, refused", [("progress", 1), ("health", 3), ("results", 1), ("counts", 1), ("job w1", 1)]
)
def test_a_stranger(
    bare: WorkProject, capsys: pytest.CaptureFixture[str], command: str, refused: int
) -> None:
    """A user who may not look into the folder gets one clear line."""
    bare.folder.chmod(0o750)
    for parent in list(bare.folder.parents)[:3]:
        parent.chmod(0o755)
    child = os.fork()
    if child == 0:
        os.setgroups([])
        os.setgid(65534)
        os.setuid(65534)
        name, *words = command.split()
        status, output, fault = run_here(capsys, name, "--project", f"{bare.folder}/", *words)
        os._exit(0 if status == refused and "only root and members of the group bsched" in fault else 1)
    assert os.waitpid(child, 0)[1] == 0


# ---- Progress and outputs


def test_why_no_copy_can_be_taken_is_said_if_there_is_no_older_one(
    bare: WorkProject, capsys: pytest.CaptureFixture[str], monkeypatch: pytest.MonkeyPatch
) -> None:
    def refuse(*_args: object) -> None:
        raise Fault("project.db: the disk is full")

    monkeypatch.setattr("bsched_tools.project_access.copy_tables", refuse)
    status, output, fault = run_here(capsys, "progress", "--project", f"{bare.folder}/")
    advice = "make one by `bsched-tools copy --project sums`, as root"
    assert (status, output) == (1, "")
    assert fault == f"bsched-tools: project.db: the disk is full; and there is no older copy: {advice}\n"
