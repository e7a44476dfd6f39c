"""Tests that `health` finds spoiled outputs and inputs, a part in each run."""
import hashlib
import json
from collections.abc import Callable
from pathlib import Path

import pytest
from small_project import make_tables

from bsched_bridge.uploads.tables import UploadTables
from bsched_tools import comparing
from bsched_tools.comparing import compared
from bsched_tools.projects import Project

NOW, DAY = 1_800_000_000, 86_400
CATALOGUE = """\
files = "files"
[[app]]
name = "dock"
input_files = [{ name = "{workunit}.in", open_name = "in" }]
[[app]]
name = "fold"
command_lines = "lines"
"""


def sha256_of(data: bytes) -> str:
    """Returns the SHA-256 of bytes."""
    return hashlib.sha256(data).hexdigest()


@pytest.fixture
def project(tmp_path: Path) -> Project:
    """Makes a project with four outputs, the inputs w1 to w3, and the command line f1."""
    folder = tmp_path / "sums"
    for name in ("bridge/uploads/store", "bridge/files", "bridge/lines", "submitted", "units"):
        (folder / name).mkdir(parents=True)
    (folder / "bridge" / "bridge.toml").write_text(
        'catalogue = "catalogue.toml"\n[uploads]\nfolder = "uploads"\n'
    )
    (folder / "bridge" / "catalogue.toml").write_text(CATALOGUE)
    tables = UploadTables(folder / "bridge" / "uploads" / "uploads.db")
    with tables.transaction() as connection:
        for number in range(4):
            data = f"output {number}".encode()
            sha256 = sha256_of(data)
            connection.execute("INSERT INTO content VALUES (?, ?)", (sha256, len(data)))
            connection.execute(
                "INSERT INTO file VALUES (?, 0, 'out', ?, ?)", (f"w{number}_0", len(data), sha256)
            )
            (folder / "bridge" / "uploads" / "store" / sha256).write_bytes(data)
    tables.close()
    inputs = []
    for number in (1, 2, 3):
        data = f"input {number}".encode()
        (folder / "bridge" / "files" / f"w{number}.in").write_bytes(data)
        inputs.append([f"w{number}", f"inputs/{number}", len(data), sha256_of(data)])
    record = {"format": 1, "batch": "w", "app": "dock", "columns": [], "inputs": inputs}
    (folder / "submitted" / "w.json").write_text(json.dumps(record))
    (folder / "bridge" / "lines" / "f1").write_text("-x 1\n")
    record = {"format": 1, "batch": "f", "app": "fold", "columns": []}
    record["inputs"] = [["f1", "-x 1", 4, sha256_of(b"-x 1")]]
    (folder / "submitted" / "f.json").write_text(json.dumps(record))
    return Project(folder)


def store(project: Project) -> list[Path]:
    """Returns the stored outputs, in the order in which they are read."""
    return sorted((project.folder / "bridge" / "uploads" / "store").iterdir())


def append(path: Path) -> None:
    """Does to a file what a scientist may do."""
    path.chmod(0o644)
    with path.open("a") as file:
        file.write("more")


def test_all_is_good(project: Project) -> None:
    assert list(compared(project, None, NOW)) == []
    kept = json.loads((project.work / "compared.json").read_text())
    assert {kind: one["is_ended"] for kind, one in kept["rounds"].items()} == {
        "outputs": True,
        "inputs": True,
    }


CHANGES: list[Callable[[Path], object]] = [
    append,
    lambda path: path.write_bytes(path.read_bytes()[:-1]),
    lambda path: path.write_bytes(b"x" + path.read_bytes()[1:]),
    lambda path: path.unlink(),
]
SAYS = ["it has more than 8 bytes", "it has 7 bytes in place of 8", "it has other bytes (SHA-256)", "No such"]


@pytest.mark.parametrize("change, says", zip(CHANGES, SAYS))
def test_a_spoiled_output_is_said_until_it_is_mended(
    project: Project, change: Callable[[Path], object], says: str
) -> None:
    path = store(project)[2]
    good = path.read_bytes()
    change(path)
    number = good.decode()[-1]
    for seconds in (0, 600):  # the second run reads it again, though its round has ended
        (text,) = compared(project, None, NOW + seconds)
        assert text.startswith(f"{path.parent}/{path.name} (out of w{number}_0): {says}")
        assert "restore it, or it is lost" in text
    path.unlink(missing_ok=True)
    path.write_bytes(good)
    assert list(compared(project, None, NOW + 1200)) == []


@pytest.mark.parametrize("change, says", zip(CHANGES, SAYS))
@pytest.mark.parametrize("name", ["files/w2.in", "lines/f1"])
def test_a_spoiled_input_is_said_until_it_is_mended(
    project: Project, change: Callable[[Path], object], says: str, name: str
) -> None:
    path = project.folder / "bridge" / name
    good = path.read_bytes()
    change(path)
    (text,) = compared(project, None, NOW)
    says = says.replace("7 bytes in place of 8", f"{len(good) - 1} bytes in place of {len(good)}")
    assert says.replace("than 8", f"than {len(good)}") in text
    assert text.endswith(": remove it, and run the same `bsched-tools submit` again")
    path.unlink(missing_ok=True)
    path.write_bytes(good)
    assert list(compared(project, None, NOW + 600)) == []


def test_inputs_of_decided_workunits_may_go(project: Project, tmp_path: Path) -> None:
    """The copy of the tables has w1 alone, and it is open."""
    copy = make_tables(tmp_path / "project.db", units=1)
    for path in (project.folder / "bridge" / "files").iterdir():
        path.unlink()
    (text,) = compared(project, copy, NOW)
    assert "w1.in (the input of w1): No such file" in text


def test_each_run_reads_a_part(project: Project, monkeypatch: pytest.MonkeyPatch) -> None:
    """All files are read in turn. The next round begins a day after this one began."""
    monkeypatch.setattr(comparing, "MOST_BYTES", 16)  # two files
    read: list[str] = []
    compare = comparing.Stored.fault

    def fault(one: comparing.Stored) -> str | None:
        read.append(one.path.name)
        return compare(one)

    monkeypatch.setattr(comparing.Stored, "fault", fault)
    outputs = [path.name for path in store(project)]
    parts = []
    for run in range(4):
        compared(project, None, NOW + 600 * run)
        parts.append(read.copy())
        read.clear()
    first, second = [outputs[:2], outputs[2:]]
    assert parts == [[*first, "f1", "w1.in", "w2.in"], [*second, "w3.in"], [], []]
    compared(project, None, NOW + DAY - 1)
    assert read == []
    compared(project, None, NOW + DAY)
    assert read == parts[0]


def test_a_file_that_a_sweep_deletes_is_not_missing(
    project: Project, monkeypatch: pytest.MonkeyPatch
) -> None:
    """The file goes first, and then its row."""
    path = store(project)[0]
    path.unlink()
    compare = comparing.Stored.fault

    def fault(one: comparing.Stored) -> str | None:
        found = compare(one)
        if found is not None:
            tables = UploadTables(project.folder / "bridge" / "uploads" / "uploads.db")
            with tables.transaction() as connection:
                connection.execute("DELETE FROM content WHERE sha256 = ?", (one.sha256,))
            tables.close()
        return found

    monkeypatch.setattr(comparing.Stored, "fault", fault)
    assert list(compared(project, None, NOW)) == []


@pytest.mark.parametrize("text", ["", "[]", "3", '{"format": 9}', '{"format": 1, "rounds": 3}'])
def test_a_spoiled_file_of_rounds_begins_anew(project: Project, text: str) -> None:
    (project.work / "compared.json").write_text(text)
    append(store(project)[0])
    assert len(list(compared(project, None, NOW))) == 1
