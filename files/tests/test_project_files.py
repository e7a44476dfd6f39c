"""Tests the files of a project: what is written is read again, and each fault has its line."""
import os
from pathlib import Path

import pytest
from hypothesis import given
from hypothesis import strategies as some

from bsched_files.faults import Fault
from bsched_files.file_names import MOST_FILES
from bsched_files.ports import MOST_PORT
from bsched_files.project_files import (
    MOST_SENT,
    MOST_SHARE,
    NAME,
    ClosedFile,
    FileStatus,
    LiveFile,
    ProjectFile,
    read_files,
    write_files,
)
from bsched_files.toml_entries import OperatorFault

GOOD = """\
format = 1

[[file]]
number = 2
state = "open"
folder = "two"
port = 8082
key_file = "two/key"
max_wus_to_send = 4

[[file]]
number = 1
state = "closed"
archive = "1.db"
"""


@pytest.fixture
def path(tmp_path: Path) -> Path:
    """Returns the path of the files of a project, and makes what they name."""
    (tmp_path / "two").mkdir()
    (tmp_path / "1.db").write_bytes(b"")
    return tmp_path / NAME


def test_files_are_read_in_the_order_of_their_numbers(path: Path) -> None:
    path.write_text(GOOD)
    two = path.parent / "two"
    assert read_files(path) == [
        ClosedFile(1, path.parent / "1.db"),
        LiveFile(2, FileStatus.OPEN, two, 8082, two / "key", 4, 1, False),
    ]


LETTERS = some.characters(blacklist_categories=["Cs"], blacklist_characters="/\0")
NAMES = some.text(LETTERS, min_size=1, max_size=9)
STATES = some.sampled_from([FileStatus.OPEN, FileStatus.CLOSING, FileStatus.ASLEEP])
NUMBERS = some.lists(some.tuples(some.integers(1, MOST_FILES), some.booleans()), min_size=1, max_size=5)


@given(some.data())
def test_what_is_written_is_read_again(
    tmp_path_factory: pytest.TempPathFactory, data: some.DataObject
) -> None:
    path = tmp_path_factory.mktemp("project") / NAME
    folder = path.parent / "folder"
    folder.mkdir()
    files: list[ProjectFile] = []
    for place, (number, is_closed) in enumerate(dict(data.draw(NUMBERS)).items()):
        if is_closed:
            files.append(ClosedFile(number, folder))
            continue
        values = data.draw(STATES), folder, MOST_PORT - place, path.parent / data.draw(NAMES)
        sent, share = data.draw(some.integers(1, MOST_SENT)), data.draw(some.integers(0, MOST_SHARE))
        files.append(LiveFile(number, *values, sent, share, data.draw(some.booleans())))
    write_files(path, files)
    assert read_files(path) == sorted(files, key=lambda one: one.number)


SECOND = GOOD.partition("\n\n[[file]]\nnumber = 1")[0].partition("format = 1\n")[2]


@pytest.mark.parametrize(
    "old, new, fault",
    [
        ("number = 1", "number = 2", "line 12: number 2 is that of an earlier file"),
        ("number = 2", "number = 0", "line 4: number is not within 1 to 99999"),
        ('"open"', '"opened"', "line 5: state is not open, closing, asleep, closed"),
        ('"two"', '"three"', "line 6: folder: .*three does not exist"),
        ('"two"', '"1.db"', "line 6: folder: .*1.db is not a folder"),
        ("8082", "8070", "line 7: port 8070 is that of the project waves"),
        ("8082", "65536", "line 7: port is not within 1 to 65535"),
        ("port = 8082\n", "", "line 3: port is missing"),
        ("key_file", "keyfile", "line 8: keyfile is not known here: is key_file meant, which is missing"),
        ('archive = "1.db"', 'archive = "2.db"', "line 14: archive: .*2.db does not exist"),
        ('archive = "1.db"', 'archive = "1.db"\nport = 1', "line 15: port is not known here"),
        ("max_wus_to_send = 4", "max_wus_to_send = 4\nshares = 2", "line 10: shares is not known here"),
        ("format = 1", "format = 2", r"line 1: a newer version wrote it \(format 2, and this one knows 1\)"),
        ("format = 1\n", "", "line 1: format is missing"),
        ("format = 1", "format = 1\nfiles = 2", "line 2: files is not known here"),
        (GOOD, "format = 1\n", r"line 1: it has no \[\[file\]\]"),
    ],
)
def test_each_fault_has_its_line(path: Path, old: str, new: str, fault: str) -> None:
    assert old in GOOD
    path.write_text(GOOD.replace(old, new, 1))
    with pytest.raises(OperatorFault, match=f"{NAME}: {fault}"):
        read_files(path, {8070: "waves"})


def test_a_port_that_two_files_have(path: Path) -> None:
    path.write_text(GOOD + SECOND.replace("number = 2", "number = 3"))
    with pytest.raises(OperatorFault, match="line 20: port 8082 is that of file 2"):
        read_files(path)


def test_a_write_that_fails_leaves_the_former_files(path: Path, monkeypatch: pytest.MonkeyPatch) -> None:
    write_files(path, [ClosedFile(1, path.parent / "1.db")])
    before = path.read_bytes()

    def fails(*_words: object) -> None:
        raise OSError(28, "No space left on device")

    for step in ("fsync", "replace"):
        with monkeypatch.context() as patched:
            patched.setattr(os, step, fails)
            with pytest.raises(Fault, match="No space left"):
                write_files(path, [])
        assert path.read_bytes() == before and len(list(path.parent.glob(".*"))) == 0
