"""Lists of the copies in a folder, by a function and by the command `copies`."""
import json
import os
from pathlib import Path

import pytest
from hypothesis import given
from hypothesis import strategies as st
from made_project import MadeProject

from bsched_files.copies import STATE, TABLES, copy_name
from bsched_files.faults import Fault
from bsched_tools.copies import listing
from bsched_tools.copies.listing import Kind, copies_of_kind, kept_copies, kept_copy, newest_copy

MOMENT, TEXT = 1795867200, "2026-11-28 12:00:00 UTC"  # the same moment


def put(folder: Path, moment: float, kind: Kind = Kind.TABLES, nbytes: int = 0) -> Path:
    """Puts a file with the name of a copy into a folder."""
    folder.mkdir(exist_ok=True)
    stem, ending = ("project", TABLES) if kind is Kind.TABLES else ("bridge", STATE)
    path = folder / copy_name(stem, moment, ending)
    path.write_bytes(b"x" * nbytes)
    return path


@given(st.sets(st.tuples(st.integers(0, 10**9), st.sampled_from(Kind))))
def test_all_copies_are_listed_the_newest_first(
    tmp_path_factory: pytest.TempPathFactory, copies: set[tuple[int, Kind]]
) -> None:
    folder = tmp_path_factory.mktemp("copies")
    for moment, kind in copies:
        put(folder, moment, kind)
    listed = [(one.moment, one.kind) for one in kept_copies(folder, "project")]
    assert set(listed) == copies and len(listed) == len(copies)
    assert [moment for moment, _ in listed] == sorted((moment for moment, _ in listed), reverse=True)
    for kind in Kind:
        if moments := [moment for moment, its in copies if its is kind]:
            assert newest_copy(folder, kind, "project").moment == max(moments)


def test_the_newest_within_a_second(tmp_path: Path) -> None:
    put(tmp_path, MOMENT + 0.25)
    newest = put(tmp_path, MOMENT + 0.75)
    put(tmp_path, MOMENT + 0.5)
    assert newest_copy(tmp_path, Kind.TABLES, "project").path == newest
    assert kept_copies(tmp_path, "project")[0].path == newest


def test_what_is_no_copy(tmp_path: Path) -> None:
    """Root copies what is found here, and the owner of the folder could put links and pipes there."""
    good = put(tmp_path, 1)
    put(tmp_path, 2).unlink()
    (tmp_path / copy_name("project", 2)).symlink_to(good)
    os.mkfifo(tmp_path / copy_name("project", 3))
    (tmp_path / copy_name("project", 4)).mkdir()
    for name in (copy_name("other", 5), "project.db", "notes", f".{copy_name('project', 6)}.new"):
        (tmp_path / name).touch()
    assert [one.path for one in kept_copies(tmp_path, "project")] == [good]


def test_a_copy_that_is_removed_meanwhile(tmp_path: Path) -> None:
    paths = [put(tmp_path, moment) for moment in (1, 2)]
    copies = copies_of_kind(tmp_path, Kind.TABLES, "project")
    assert next(copies).path == paths[1]
    paths[0].unlink()
    assert list(copies) == []


def test_no_copies(tmp_path: Path) -> None:
    put(tmp_path / "copies", 1)
    assert kept_copies(tmp_path / "none", "project") == []
    for folder, kind, what in (
        ("none", Kind.TABLES, "the tables"),
        ("copies", Kind.STATE, "the bridge's state"),
    ):
        with pytest.raises(Fault, match=f"there is no copy of {what}.* in {tmp_path / folder}"):
            newest_copy(tmp_path / folder, kind, "project")


def test_any_file(tmp_path: Path) -> None:
    """A file with another name is of the moment of its last write."""
    path = tmp_path / "kept.db"
    path.write_bytes(b"123")
    os.utime(path, (MOMENT, MOMENT))
    copy = kept_copy(path)
    assert copy.line == f"{TEXT}  tables               3 bytes  {path}"
    assert kept_copy(put(tmp_path, 1, Kind.STATE)).kind is Kind.STATE
    with pytest.raises(Fault, match="is no copy: there is no such file"):
        kept_copy(tmp_path)


@pytest.mark.parametrize(
    "moment, text", [(10**12, "9892-03-08 12:26:40"), (-(10**12), "1970-01-01 00:00:00")]
)
def test_a_time_that_no_date_has(
    tmp_path: Path, monkeypatch: pytest.MonkeyPatch, moment: int, text: str
) -> None:
    """Not every file system stores such a time."""
    monkeypatch.setattr(listing, "moment_of", lambda _: moment)
    path = tmp_path / "kept.db"
    path.touch()
    assert kept_copy(path).line.startswith(f"{text} UTC ")


# ---- The command


def test_the_copies_of_a_project(made_project: MadeProject) -> None:
    folder = made_project.folder / "copies"
    tables, older = put(folder, MOMENT, nbytes=4096), put(folder, MOMENT - 1)
    state = put(folder, MOMENT + 1, Kind.STATE, 512)
    status, output, fault = made_project.tools("copies")
    assert (status, fault) == (0, "")
    assert [line.split()[-1] for line in output.splitlines()] == [str(state), str(tables), str(older)]
    assert output.splitlines()[1] == f"{TEXT}  tables           4,096 bytes  {tables}"
    members = [json.loads(line) for line in made_project.tools("copies", "--json")[1].splitlines()]
    assert members[0] == {"moment": MOMENT + 1, "kind": "state", "bytes": 512, "path": str(state)}
    assert [member["kind"] for member in members] == ["state", "tables", "tables"]


def test_one_copy_of_a_project(made_project: MadeProject, tmp_path: Path) -> None:
    folder = made_project.folder / "copies"
    tables = put(folder, MOMENT)
    assert made_project.tools("copies", "--newest", "tables") == (0, f"{tables}\n", "")
    fault = f"bsched-tools: there is no copy of the bridge's state file in {folder}\n"
    assert made_project.tools("copies", "--newest", "state") == (1, "", fault)
    (member,) = made_project.tools("copies", "--newest", "tables", "--json")[1].splitlines()
    assert json.loads(member)["path"] == str(tables)
    assert made_project.tools("copies", tables.name)[1].startswith(TEXT)
    elsewhere = put(tmp_path / "elsewhere", 0)
    assert made_project.tools("copies", elsewhere)[1].startswith("1970-01-01 00:00:00 UTC")
    fault = f"bsched-tools: {folder}/none.db is no copy: there is no such file\n"
    assert made_project.tools("copies", "none.db") == (1, "", fault)
    assert made_project.tools("copies", "none.db", "--newest", "tables")[0] == 64
    assert made_project.tools("copies", "--newest", "uploads")[0] == 64


def test_a_project_without_copies(made_project: MadeProject) -> None:
    status, output, fault = made_project.tools("copies")
    assert (status, output) == (0, "")
    assert fault.startswith(
        f"bsched-tools: there is no copy in {made_project.folder}/copies: `bsched-tools copy "
    )


def test_a_spoiled_file_of_the_units(made_project: MadeProject, tmp_path: Path) -> None:
    """One line says so. A path of a file needs no folder of copies."""
    units = made_project.folder / "units.toml"
    units.write_text("[copy\n")
    asked: list[list[str]] = [[], ["--newest", "tables"], ["--json"], ["none.db"]]
    for words in asked:
        status, output, fault = made_project.tools("copies", *words)
        assert (status, output) == (1, "") and fault.count("\n") == 1
        assert fault.startswith(f"bsched-tools: {units}: is not TOML: ")
    assert made_project.tools("copies", put(tmp_path / "elsewhere", MOMENT))[0] == 0
