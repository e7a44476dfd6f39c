"""How output files get into a folder."""
import io
import os
from pathlib import Path

import pytest
from files_uploaded import content, content_of, expected, files_below, spoil
from results_read import lines_of

from bsched_files import atomic as files
from bsched_files.faults import Fault
from bsched_tools.placing import OutputFolder, folder_name
from bsched_tools.results import write_results
from bsched_tools.uploaded import UploadedFile


@pytest.mark.parametrize("way", ["copy", "link", "another disk"])
def test_the_files_are_put_into_a_folder_once(
    tables: Path, uploads: Path, tmp_path: Path, monkeypatch: pytest.MonkeyPatch, way: str
) -> None:
    """They are copies of the folder's owner. On request they are hard links, but not on another disk."""

    def refuse(*_paths: object, **_more: object) -> None:
        raise OSError(18, os.strerror(18))

    if way == "another disk":
        monkeypatch.setattr(os, "link", refuse)
    before = os.umask(0o077)  # the modes do not depend on it
    try:
        target, cursor = tmp_path / "files", tmp_path / "cursor"
        target.mkdir()
        if os.geteuid() == 0:
            os.chown(target, 12345, 54321)
        lines = lines_of(tables, uploads=uploads, files_to=target, cursor=cursor, is_linked=way != "copy")
    finally:
        os.umask(before)
    assert files_below(target) == expected(lines)
    assert not list(target.glob(".*"))
    for folder in target.iterdir():
        assert folder.stat().st_mode & 0o7777 == 0o755
    for path in target.glob("*/*"):
        status = path.stat()
        assert (status.st_nlink > 1) is (way == "link")
        if way != "link":
            assert status.st_mode & 0o7777 == 0o644
            assert (status.st_uid, status.st_gid) == (target.stat().st_uid, target.stat().st_gid)
    path = next(target.glob("*/out"))
    path.unlink()
    assert lines_of(tables, uploads=uploads, files_to=target, cursor=cursor) == []
    assert not path.exists()  # the cursor says that it was given out


def test_a_collected_file_is_the_operators_own(tables: Path, uploads: Path, tmp_path: Path) -> None:
    """Whatever is done to it, the project's stored files stay as they are."""
    target = tmp_path / "files"
    target.mkdir()
    stored = {path: path.read_bytes() for path in (uploads / "store").iterdir()}
    lines_of(tables, uploads=uploads, files_to=target)
    for path in target.glob("*/*"):
        path.chmod(0o666)
        with path.open("a") as file:
            file.write("more")
    assert {path: path.read_bytes() for path in (uploads / "store").iterdir()} == stored


def test_blocks_are_shared_where_the_file_system_can(
    tables: Path, uploads: Path, tmp_path: Path, monkeypatch: pytest.MonkeyPatch
) -> None:
    """A stand-in of such a file system copies a whole file by one call. The copy is compared all the same."""
    cloned = []

    def clone(target: int, request: int, source: int) -> int:
        assert request == files.FICLONE
        data = os.pread(source, 1 << 20, 0)
        cloned.append(os.pwrite(target, data, 0))
        return 0

    monkeypatch.setattr("bsched_files.atomic.fcntl.ioctl", clone)
    target = tmp_path / "files"
    target.mkdir()
    spoil(uploads, next(iter((uploads / "store").iterdir())))
    lines = lines_of(tables)
    file = io.StringIO()
    written = write_results([tables], file=file, uploads=uploads, files_to=target)
    assert len(written.spoiled) == 1 and cloned
    assert len(files_below(target)) == len(expected(lines)) - 2


@pytest.mark.skipif(os.geteuid() != 0, reason="only root gives files away")
def test_who_has_the_folder_can_not_lead_root_elsewhere(tmp_path: Path, uploads: Path, tables: Path) -> None:
    """A link in the place of the folder that is being made, or of a table, is not followed."""
    target, elsewhere = tmp_path / "files", tmp_path / "elsewhere"
    for path in (target, elsewhere):
        path.mkdir()
    (elsewhere / "kept").write_text("kept")
    (target / ".w1.new").symlink_to(elsewhere)
    (target / ".results.csv.new").symlink_to(elsewhere / "kept")
    sha256 = content(uploads, b"data")
    file = UploadedFile("out", 4, sha256, uploads / "store" / sha256)
    with OutputFolder(target) as folder:
        with pytest.raises(Fault):
            folder.place([file], "w1")
        folder.write("results.csv", b"table")
    assert [path.name for path in elsewhere.iterdir()] == ["kept"]
    assert (elsewhere / "kept").read_text() == "kept"
    assert (target / "results.csv").read_bytes() == b"table"


def test_what_a_stop_left_is_done_again(tables: Path, uploads: Path, tmp_path: Path) -> None:
    target = tmp_path / "files"
    target.mkdir()
    lines = lines_of(tables)
    first = next(line["workunit"] for line in lines if line["status"] == "done")
    (target / f".{first}.new").mkdir()
    (target / f".{first}.new" / "out").write_text("half")
    for _ in range(2):  # without a cursor all come again, and are there already
        lines_of(tables, uploads=uploads, files_to=target)
        assert files_below(target) == expected(lines)


@pytest.mark.parametrize("is_linked", [False, True])
def test_a_file_that_is_there_is_never_written(uploads: Path, tmp_path: Path, is_linked: bool) -> None:
    """As a link it is the bridge's own file."""
    names = {data: content(uploads, data) for data in (b"one", b"two")}
    both = [UploadedFile("out", 3, sha256, uploads / "store" / sha256) for sha256 in names.values()]
    with OutputFolder(tmp_path, is_linked) as folder, pytest.raises(Fault, match="w1: File exists"):
        folder.place(both, "w1")
    assert not (tmp_path / "w1").exists()
    for data, sha256 in names.items():
        assert content_of(uploads, sha256) == data


@pytest.mark.parametrize("name, folder", [("w1", "w1"), (".", "+."), ("..", "+.."), (".hidden", "+.hidden")])
def test_a_workunit_has_a_folder_of_its_own(name: str, folder: str) -> None:
    assert folder_name(name) == folder
