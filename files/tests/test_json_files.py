"""Tests JSON files with the number of their format, and how they are read again."""
import json
import os
from pathlib import Path

import pytest

from bsched_files.faults import Fault
from bsched_files.json_files import WatchedFile, file_text, read_members


def test_what_is_written_is_read(tmp_path: Path) -> None:
    path = tmp_path / "a.json"
    path.write_text(file_text(3, {"a": [1], "b": "\u00e9"}))
    assert read_members(path, 3) == {"format": 3, "a": [1], "b": "\u00e9"}
    assert read_members(path, 4)["format"] == 3  # an older file


@pytest.mark.parametrize(
    "data, fault",
    [
        (b"", "it is no JSON"),
        (b"{", "it is no JSON"),
        (b"\xff", "it is no JSON"),
        (b"[" * 100_000, "it is no JSON"),
        (b"[1]", "it is no JSON object"),
        (b"{}", "it has no number of its format"),
        (b'{"format": 0}', "it has no number of its format"),
        (b'{"format": true}', "it has no number of its format"),
        (b'{"format": "1"}', "it has no number of its format"),
        (b'{"format": 2}', "it has format 2, and this program knows 1: upgrade the program"),
        (b'{"format": 1, "a": "' + b"x" * 1_048_576 + b'"}', "it has more than 1048576 bytes"),
    ],
)
def test_faults(tmp_path: Path, data: bytes, fault: str) -> None:
    path = tmp_path / "a.json"
    path.write_bytes(data)
    with pytest.raises(Fault) as raised:
        read_members(path, 1)
    assert str(raised.value) == f"{path}: {fault}"


def test_a_file_without_a_number(tmp_path: Path) -> None:
    path = tmp_path / "a.json"
    path.write_text('{"a": 1}')
    assert read_members(path, 1, takes_unnumbered=True) == {"a": 1}
    with pytest.raises(Fault, match="No such file"):
        read_members(tmp_path / "none", 1)


def number_in(path: Path) -> int:
    """Reads a file of one number."""
    return int(read_members(path, 1)["number"])


def write(path: Path, text: str) -> None:
    """Replaces a file, as its writers do."""
    new = path.with_name("new")
    new.write_text(text)
    os.replace(new, path)


@pytest.mark.parametrize("keeps_former", [False, True])
def test_a_file_is_read_again_after_a_change(
    tmp_path: Path, caplog: pytest.LogCaptureFixture, keeps_former: bool
) -> None:
    path = tmp_path / "a.json"
    file = WatchedFile(path, number_in, -1, "there is no number", keeps_former)
    assert file.value() == -1 and not caplog.records
    write(path, file_text(1, {"number": 5}))
    assert [file.value() for _ in range(3)] == [5, 5, 5]
    write(path, json.dumps({"format": 2, "number": 6}))
    former = 5 if keeps_former else -1
    assert [file.value() for _ in range(3)] == [former] * 3
    assert [record.getMessage() for record in caplog.records] == [
        f"there is no number: {path}: it has format 2, and this program knows 1: upgrade the program"
    ]
    path.unlink()
    assert file.value() == former and len(caplog.records) == 1
    write(path, file_text(1, {"number": 7}))
    assert file.value() == 7
    assert WatchedFile(None, number_in, -1, "").value() == -1
