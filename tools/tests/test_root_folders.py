"""Folders that root makes for a project, whose user may put links and files in the way."""
import os
import stat
from pathlib import Path

import pytest

from bsched_files.faults import Fault
from bsched_tools.projects import Project
from bsched_tools.root_folders import check_writable, make_below

pytestmark = pytest.mark.skipif(os.geteuid() != 0, reason="only root gives folders to somebody else")
STRANGER = 65534


@pytest.fixture
def owner(tmp_path: Path) -> os.stat_result:
    """The user of a project, by a folder of it."""
    folder = tmp_path / "project"
    folder.mkdir()
    os.chown(folder, STRANGER, STRANGER)
    return folder.stat()


@pytest.fixture
def base(tmp_path: Path) -> Path:
    """A folder of root, below which it makes folders for projects."""
    return tmp_path / "backups"


def test_a_folder_gets_its_owner_and_mode(base: Path, owner: os.stat_result) -> None:
    make_below([base], base / "more" / "sums", 0o700, owner)
    made, above = (base / "more" / "sums").stat(), (base / "more").stat()
    assert (made.st_uid, made.st_gid, stat.S_IMODE(made.st_mode)) == (STRANGER, STRANGER, 0o700)
    assert (above.st_uid, stat.S_IMODE(above.st_mode)) == (0, 0o755)


ELSEWHERE = ["/run/systemd/system/ssh.service.d", "{base}", "{base}/../elsewhere/sums", "{base}-2/sums"]


@pytest.mark.parametrize("name", ELSEWHERE)
def test_no_folder_elsewhere_is_made(base: Path, owner: os.stat_result, name: str) -> None:
    base.mkdir()
    folder = Path(name.format(base=base))
    there = folder.exists()
    with pytest.raises(Fault, match="root makes no folder there: make it by `install -d -o 65534 "):
        make_below([base], folder, 0o700, owner)
    assert folder.exists() == there


def test_a_link_is_not_followed(tmp_path: Path, base: Path, owner: os.stat_result) -> None:
    elsewhere = tmp_path / "elsewhere"
    elsewhere.mkdir()
    (base / "sums").mkdir(parents=True)
    (base / "sums" / "link").symlink_to(elsewhere)
    with pytest.raises(OSError):
        make_below([base], base / "sums" / "link" / "made", 0o700, owner)
    assert not list(elsewhere.iterdir())


def test_a_file_in_the_way_stays(base: Path, owner: os.stat_result) -> None:
    base.mkdir()
    (base / "sums").write_text("a file")
    with pytest.raises(OSError):
        make_below([base], base / "sums", 0o700, owner)
    assert (base / "sums").read_text() == "a file"


def test_a_folder_that_exists_keeps_its_owner(base: Path, owner: os.stat_result) -> None:
    (base / "sums").mkdir(parents=True)
    make_below([base], base / "sums", 0o700, owner)
    assert (base / "sums").stat().st_uid == 0


@pytest.mark.parametrize(
    "user, group, mode, is_taken",
    [
        (0, 0, 0o755, False),
        (0, STRANGER, 0o750, False),
        (STRANGER + 1, STRANGER, 0o755, False),
        (STRANGER, 0, 0o700, True),
        (0, STRANGER, 0o2770, True),
        (0, 0, 0o1777, True),
    ],
)
def test_root_writes_only_where_the_owner_may(
    base: Path, owner: os.stat_result, user: int, group: int, mode: int, is_taken: bool
) -> None:
    base.mkdir()
    os.chown(base, user, group)
    base.chmod(mode)
    if is_taken:
        check_writable(base, owner)
        return
    with pytest.raises(Fault, match="root writes nothing there, since it is not the project's: give it"):
        check_writable(base, owner)


def test_root_may_write_anywhere_for_itself(base: Path) -> None:
    base.mkdir()
    check_writable(base, base.stat())


@pytest.mark.parametrize("name", ["{elsewhere}", "../elsewhere", "link"])
def test_no_copy_goes_into_a_folder_of_root(tmp_path: Path, owner: os.stat_result, name: str) -> None:
    """The user of a project can write its units.toml, and have links in its folder."""
    project, elsewhere = Project(tmp_path / "project"), tmp_path / "elsewhere"
    elsewhere.mkdir()
    (project.folder / "link").symlink_to(elsewhere)
    (project.folder / "units.toml").write_text(f'[copy]\nfolder = "{name.format(elsewhere=elsewhere)}"\n')
    with pytest.raises(Fault, match="root writes nothing there"):
        project.copies_made(project.units().copies)
    os.chown(elsewhere, STRANGER, STRANGER)
    assert project.copies_made(project.units().copies).samefile(elsewhere)
