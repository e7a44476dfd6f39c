"""Each command refuses a file that is no copy of the tables, and a full disk, in one line."""
import contextlib
import sqlite3
import subprocess
import sys
from collections.abc import Callable
from pathlib import Path

import plain_tables
import pytest
from small_project import PACKAGES, Twin, make_tables, tools

COMMANDS: dict[str, list[str]] = {
    "results": [],
    "counts": [],
    "statistics": ["--to", "DIR"],
    "report": ["--to", "DIR"],
}


def other_program(path: Path, _good: Path) -> None:
    connection = sqlite3.connect(path)
    connection.execute("CREATE TABLE message (text TEXT)")
    connection.close()


def cut_off(path: Path, good: Path) -> None:
    path.write_bytes(good.read_bytes()[:-4096])


def cut_in_a_page(path: Path, good: Path) -> None:
    path.write_bytes(good.read_bytes()[:-100])


def spoiled(path: Path, good: Path) -> None:
    content = bytearray(good.read_bytes())
    content[4096:] = b"\xa5" * (len(content) - 4096)
    path.write_bytes(content)


def older(path: Path, good: Path) -> None:
    plain_tables.make_former(str(path), str(good))


def second(path: Path, good: Path) -> None:
    plain_tables.make_former(str(path), str(good))
    plain_tables.upgrade(path, 2)


def newer(path: Path, good: Path) -> None:
    path.write_bytes(good.read_bytes())
    connection = sqlite3.connect(path)
    connection.execute("CREATE TABLE further (id INTEGER PRIMARY KEY) STRICT")
    connection.execute("UPDATE setting SET value = 4 WHERE name = 'schema'")
    connection.commit()
    connection.close()


def changed(path: Path, good: Path) -> None:
    path.write_bytes(good.read_bytes())
    connection = sqlite3.connect(path)
    connection.execute("DROP INDEX instance_sent")
    connection.close()


FILES: list[tuple[Callable[[Path, Path], object], str]] = [
    (lambda path, _good: None, "No such file or directory"),
    (lambda path, _good: path.write_bytes(b""), "it is empty, so it is not a database"),
    (lambda path, _good: path.write_text("name,app\n" * 100), "it is not a SQLite database"),
    (lambda path, _good: path.mkdir(), "there is no copy in this folder"),
    (other_program, "it has no tables of bsched"),
    (cut_off, "it is cut off: it has"),
    (cut_in_a_page, "it is cut off: it has"),
    (spoiled, "it is spoiled or cut off"),
    (older, "its tables are of schema 1, an older one"),
    (second, "its tables are of schema 2, an older one"),
    (newer, "its tables are of schema 4, a newer one"),
    (changed, "its tables are not bsched's"),
]


@pytest.mark.parametrize("command", COMMANDS)
@pytest.mark.parametrize("make, wanted", FILES, ids=[wanted for _, wanted in FILES])
def test_what_is_no_copy(
    tmp_path: Path,
    command: str,
    make: Callable[[Path, Path], object],
    wanted: str,
) -> None:
    good = make_tables(tmp_path / "good.db")
    path = tmp_path / "copy.db"
    make(path, good)
    args = [str(word).replace("DIR", str(tmp_path)) for word in COMMANDS[command]]
    status, output, fault = tools(command, "--tables", path, *args)
    assert (status, output) == (1, "")
    assert fault.startswith(f"bsched-tools: {path}: {wanted}") and fault.count("\n") == 1


@pytest.mark.parametrize("command", COMMANDS)
def test_tables_that_a_program_serves(project: Path, twin: Twin, tmp_path: Path, command: str) -> None:
    args = [str(word).replace("DIR", str(tmp_path)) for word in COMMANDS[command]]
    status, output, fault = tools(command, "--tables", project, *args)
    assert (status, output) == (1, "")
    wanted = f"a program has it: run `bsched-tools copy --tables {project} --to FOLDER`, and read the copy"
    assert fault == f"bsched-tools: {project}: {wanted}\n"
    assert twin.call(1, 1)["hostid"] == 1


@pytest.mark.parametrize(
    "raw_args, wanted",
    [
        (["results", "--cursor", "DISK/cursor"], "cursor"),
        (["results", "--to", "DISK/new"], "new"),
        (["statistics", "--to", "DISK"], "user.gz"),
        (["report", "--to", "DISK"], "held.json"),
    ],
)
def test_a_full_disk(project: Path, small_disk: Path, raw_args: list[str], wanted: str) -> None:
    with (small_disk / "full").open("wb", buffering=0) as full, contextlib.suppress(OSError):
        while full.write(b"x" * 4096):
            pass
    args = [word.replace("DISK", str(small_disk)) for word in raw_args]
    status, _, fault = tools(args[0], "--tables", project, *args[1:])
    assert (status, fault) == (1, f"bsched-tools: {small_disk / wanted}: No space left on device\n")


@pytest.mark.parametrize("command", ["results", "counts"])
def test_a_full_output(project: Path, command: str) -> None:
    full_command = [sys.executable, "-m", "bsched_tools", command, "--tables", str(project)]
    path = {"PYTHONPATH": PACKAGES}
    with open("/dev/full", "w") as full:
        completed = subprocess.run(full_command, stdout=full, stderr=subprocess.PIPE, text=True, env=path)
    assert (completed.returncode, completed.stderr) == (
        1,
        "bsched-tools: standard output: No space left on device\n",
    )
