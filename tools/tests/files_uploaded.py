"""Results whose files were uploaded."""
import hashlib
from functools import partial
from pathlib import Path
from typing import Any

import pytest

from bsched_bridge.uploads.tables import UploadTables
from bsched_files.file_names import FIRST, result_in_file, workunit_in_file
from bsched_files.tables import opened

LATER = 12  # the number of a later file of the project


def content(folder: Path, data: bytes) -> str:
    """Puts a content into the store, and returns its SHA-256."""
    sha256 = hashlib.sha256(data).hexdigest()
    (folder / "store" / sha256).write_bytes(data)
    return sha256


def put_files(folder: Path, lines: list[dict[str, Any]], file: int = FIRST) -> None:
    """Puts two files of each canonical result into a folder of uploads, as the bridge writes it."""
    uploads = UploadTables(folder / "uploads.db")
    with uploads.transaction() as connection:
        for line in lines:
            for place, name in enumerate(("out", "log")):
                if line["status"] == "done":
                    data = f"{name} of {workunit_in_file(line['workunit'], file)}\n".encode()
                    result = result_in_file(line["canonical"], file)
                    connection.execute(
                        "INSERT INTO file VALUES (?, ?, ?, ?, ?)",
                        (result, place, name, len(data), content(folder, data)),
                    )
    uploads.close()


def opens_as_file(monkeypatch: pytest.MonkeyPatch, file: int) -> None:
    """All tables that are opened together are from now on those of a file of the project."""
    monkeypatch.setattr("bsched_files.tables.opened", partial(opened, file=file))


def files_below(folder: Path) -> dict[str, str]:
    """Returns the contents of the files in the folders of a folder."""
    return {str(path.relative_to(folder)): path.read_text() for path in folder.glob("*/*")}


def content_of(folder: Path, sha256: str) -> bytes:
    """Returns the content that the store has under a SHA-256."""
    return (folder / "store" / sha256).read_bytes()


def expected(lines: list[dict[str, Any]], file: int = FIRST) -> dict[str, str]:
    """Returns the files of the workunits that are done."""
    units = [line["workunit"] for line in lines if line["status"] == "done"]
    return {
        f"{unit}/{name}": f"{name} of {workunit_in_file(unit, file)}\n"
        for unit in units
        for name in ("out", "log")
    }


def spoil(uploads: Path, path: Path, how: str = "longer") -> None:
    """Spoils a stored file."""
    data = path.read_bytes()
    changed = {"longer": data + b"more", "cut": data[:-1], "other": b"x" + data[1:], "empty": b""}
    path.unlink()
    if how == "link":
        path.symlink_to(uploads / "uploads.db")
    elif how != "gone":
        path.write_bytes(changed[how])
