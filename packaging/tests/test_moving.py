"""Tests `bsched-project export` and `import` between two folders of projects, with the tools of this clone.
The twin stands for bsched."""
import os
import re
import shutil
import sqlite3
import subprocess
import sys
import tarfile
from contextlib import closing
from pathlib import Path

import pytest
from moved_projects import MAKE_STATE, MORE_STUBS
from project_machine import STUBS, TOP, Machine


@pytest.fixture
def machines(tmp_path: Path) -> tuple[Machine, Machine]:
    """Makes two machines. The first one has a project with a bridge that ran once."""
    made = []
    for name in ("first", "second"):
        (tmp_path / name).mkdir()
        made.append(Machine(tmp_path / name))
    first, second = made
    completed = first.make(
        "--settings", first.settings("operator_key = 'my-own.key_1'"), "sums", stubs=MORE_STUBS
    )
    assert completed.returncode == 0, completed.stderr
    bridge = first.projects / "sums" / "bridge"
    (bridge / "files" / "sum_1").write_text("program\n")
    command = [sys.executable, "-m", "bsched_bridge", "keygen"]
    subprocess.run(command, check=True, cwd=bridge, env={"PYTHONPATH": f"{TOP}/bridge:{TOP}/files"})
    command[1:] = ["-c", MAKE_STATE]
    subprocess.run(command, check=True, cwd=bridge, env={"PYTHONPATH": f"{TOP}/bridge:{TOP}/files"})
    return first, second


def run(machine: Machine, *args: str) -> "subprocess.CompletedProcess[str]":
    """Runs bsched-project with the tools."""
    return machine.make(*args, stubs=MORE_STUBS)


def test_a_project_moves_to_another_machine(machines: tuple[Machine, Machine], tmp_path: Path) -> None:
    first, second = machines
    file = tmp_path / "sums.tar.gz"
    completed = run(first, "export", "sums", str(file))
    assert (completed.returncode, completed.stderr) == (0, "")
    assert "The project still runs here" in completed.stdout and file.stat().st_mode & 0o777 == 0o600
    with tarfile.open(file) as archive:
        names = archive.getnames()
    assert "sums/project.db" in names and "sums/bridge/bridge.db" in names
    assert not [name for name in names if name.endswith(("-wal", "-shm", ".lock"))]
    completed = run(second, "import", str(file))
    assert (completed.returncode, completed.stderr) == (0, "")
    assert (
        "systemctl enable --now bsched@sums bsched-tick@sums.timer" in completed.stdout
        or "enabled and started: bsched@sums bsched-tick@sums.timer" in completed.stdout
    )
    for name in ("settings.toml", "environment", "bridge/bridge.toml", "bridge/files/sum_1", "units.toml"):
        assert (second.projects / "sums" / name).read_bytes() == (first.projects / "sums" / name).read_bytes()
    assert second.key("sums") == "my-own.key_1"
    assert not (second.projects / "sums" / "enabled-units").exists()
    assert [path.name for path in second.projects.iterdir()] == ["sums"]
    assert "exists already" in run(second, "import", str(file)).stderr
    assert "is not replaced" in run(first, "export", "sums", str(file)).stderr


def test_an_export_that_stops_the_project(machines: tuple[Machine, Machine], tmp_path: Path) -> None:
    first, _ = machines
    completed = run(first, "export", "--stop", "sums", str(tmp_path / "x.tar.gz"))
    assert completed.returncode == 0 and "are stopped here and stay so" in completed.stdout
    asked = (first.folder / "systemctl").read_text().splitlines()
    stopped = [line for line in asked if line.startswith("disable")]
    assert stopped == ["disable --now bsched-tick@sums.timer", "disable --now bsched@sums"]


# tar ends with 1 if a file changed or vanished, and with 2 if it can't read one
@pytest.mark.parametrize(
    "status, options, is_good",
    [(1, [], True), (1, ["--stop"], False), (2, [], False), (2, ["--stop"], False)],
)
def test_files_that_are_not_copied_whole(
    machines: tuple[Machine, Machine], tmp_path: Path, status: int, options: list[str], is_good: bool
) -> None:
    first, _ = machines
    file = tmp_path / "x.tar.gz"
    stub = f'tar() {{ command tar "$@" || return; [[ "$*" != *" -cf - ."* ]] || return {status}; }}\n'
    completed = first.make("export", *options, "sums", str(file), stubs=MORE_STUBS + stub)
    assert (completed.returncode == 0) == file.exists() == is_good
    assert is_good or "the files can't be copied" in completed.stderr
    assert not list(tmp_path.glob(".bsched-export-*"))


def test_a_file_that_another_export_made_meanwhile(machines: tuple[Machine, Machine], tmp_path: Path) -> None:
    """`mv -n` replaces nothing, and ends with status 0 all the same."""
    first, _ = machines
    file = tmp_path / "x.tar.gz"
    stub = 'mv() { [ "$1" != -n ] || echo other > "${@: -1}"; command mv "$@"; }\n'
    completed = first.make("export", "sums", str(file), stubs=MORE_STUBS + stub)
    assert completed.returncode == 1 and "can't be written" in completed.stderr
    assert file.read_text() == "other\n" and not list(tmp_path.glob(".bsched-export-*"))


def test_an_import_is_on_the_disk_before_it_has_its_name(
    machines: tuple[Machine, Machine], tmp_path: Path
) -> None:
    """The units that it starts answer, and what they answered must be there after a power failure."""
    first, second = machines
    file, steps = tmp_path / "x.tar.gz", tmp_path / "steps"
    assert run(first, "export", "sums", str(file)).returncode == 0
    stub = "".join(
        f'{name}() {{ echo "{name} $1" >> {steps}; command {name} "$@"; }}\n' for name in ("mv", "sync")
    )
    completed = second.make("import", str(file), stubs=MORE_STUBS + stub)
    assert (completed.returncode, completed.stderr) == (0, "")
    assert steps.read_text().splitlines() == ["sync -f", "mv -T", f"sync {second.projects}"]


def test_a_file_that_cannot_be_read(machines: tuple[Machine, Machine], tmp_path: Path) -> None:
    first, _ = machines
    (first.projects / "sums" / "bridge" / "files" / "sum_1").chmod(0)
    # without these capabilities root reads only what the modes allow
    limit = "command setpriv --bounding-set=-dac_override,-dac_read_search" if os.getuid() == 0 else "command"
    stub = f'tar() {{ {limit} tar "$@"; }}\n'
    completed = first.make("export", "sums", str(tmp_path / "x.tar.gz"), stubs=MORE_STUBS + stub)
    assert completed.returncode == 1 and "sum_1" in completed.stderr
    assert not (tmp_path / "x.tar.gz").exists()


def test_the_tables_of_uploads_while_the_bridge_serves(
    machines: tuple[Machine, Machine], tmp_path: Path
) -> None:
    """A row that is in the log alone moves, too, and the log itself does not."""
    first, second = machines
    uploads = first.projects / "sums" / "bridge" / "uploads"
    uploads.mkdir()
    (uploads / "secret").write_bytes(b"s" * 32)
    with closing(sqlite3.connect(uploads / "uploads.db", isolation_level=None)) as tables:
        tables.execute("PRAGMA journal_mode = WAL")
        tables.execute("CREATE TABLE upload (name TEXT)")
        tables.execute("INSERT INTO upload VALUES ('a')")
        assert run(first, "export", "sums", str(tmp_path / "x.tar.gz")).returncode == 0
    completed = run(second, "import", str(tmp_path / "x.tar.gz"))
    assert (completed.returncode, completed.stderr) == (0, "")
    moved = second.projects / "sums" / "bridge" / "uploads"
    assert sorted(os.listdir(moved)) == ["secret", "uploads.db"]
    with closing(sqlite3.connect(moved / "uploads.db")) as tables:
        assert tables.execute("SELECT name FROM upload").fetchall() == [("a",)]


def test_what_the_user_of_the_units_put_there(machines: tuple[Machine, Machine], tmp_path: Path) -> None:
    """An import, which root runs, follows no link, and enables only units of the project."""
    first, second = machines
    folder, outside = first.projects / "sums", tmp_path / "outside"
    outside.mkdir(mode=0o755)
    (outside / "file").write_text("precious")
    (folder / "units").symlink_to(outside)
    (folder / "enabled-units").write_text(f"bsched@sums\n{folder}/own.service\nbsched@others\n")
    assert run(first, "export", "sums", str(tmp_path / "x.tar.gz")).returncode == 0
    completed = run(second, "import", str(tmp_path / "x.tar.gz"))
    assert completed.returncode == 0 and "own.service" not in completed.stdout
    assert "bsched@sums" in completed.stdout and "bsched@others" not in completed.stdout
    assert outside.stat().st_mode & 0o777 == 0o755 and (outside / "file").stat().st_mode & 0o044


def test_a_bridge_elsewhere_is_not_imported(machines: tuple[Machine, Machine], tmp_path: Path) -> None:
    first, second = machines
    bridge = first.projects / "sums" / "bridge"
    bridge.rename(tmp_path / "bridge")
    bridge.symlink_to(tmp_path / "bridge")
    (tmp_path / "bridge" / "bridge.db").unlink()
    assert run(first, "export", "sums", str(tmp_path / "x.tar.gz")).returncode == 0
    assert "can't be given to" in run(second, "import", str(tmp_path / "x.tar.gz")).stderr
    assert list(second.projects.iterdir()) == []


def test_ports_that_are_taken(machines: tuple[Machine, Machine], tmp_path: Path) -> None:
    first, second = machines
    assert run(first, "export", "sums", str(tmp_path / "x.tar.gz")).returncode == 0
    assert run(second, "others").returncode == 0
    completed = run(second, "import", str(tmp_path / "x.tar.gz"))
    assert completed.returncode == 0 and "Its ports are taken here" in completed.stdout
    ports = re.findall(r"\d+", (second.projects / "sums" / "environment").read_text())
    bridge = (second.projects / "sums" / "bridge" / "bridge.toml").read_text()
    assert f'scheduler = "127.0.0.1:{ports[0]}"' in bridge and f'listen = "127.0.0.1:{ports[1]}"' in bridge


@pytest.mark.parametrize("spoil", ["empty", "text", "cut", "above", "tables"])
def test_a_file_that_is_no_export(machines: tuple[Machine, Machine], tmp_path: Path, spoil: str) -> None:
    first, second = machines
    file = tmp_path / "x.tar.gz"
    assert run(first, "export", "sums", str(file)).returncode == 0
    if spoil == "empty":
        file.write_bytes(b"")
    elif spoil == "text":
        file.write_text("no archive")
    elif spoil == "cut":
        file.write_bytes(file.read_bytes()[:-100])
    else:
        (tmp_path / "sums").mkdir()
        (tmp_path / "sums" / "project.db").write_text("no tables")
        shutil.copy(first.projects / "sums" / "settings.toml", tmp_path / "sums")
        (tmp_path / "sums" / "environment").write_text("PORT=9001\nBRIDGE_PORT=9002\n")
        with tarfile.open(file, "w:gz") as archive:
            archive.add(tmp_path / "sums", "sums")
            if spoil == "above":
                archive.add(tmp_path / "sums" / "project.db", "../above")
    completed = run(second, "import", str(file))
    assert completed.returncode == 1 and completed.stderr.count("\n") == 1
    assert list(second.projects.iterdir()) == [] and not (second.folder / "above").exists()


def test_commands_that_are_not_possible(machines: tuple[Machine, Machine]) -> None:
    first, _ = machines
    for args in (["export"], ["import"], ["nginx"], ["export", "sums"], ["export", "../sums", "x"]):
        assert run(first, *args).returncode == 64, args
    assert run(first, "export", "none", "x").returncode == 1
    assert run(first, "import", "/none").returncode == 1
    assert os.listdir(first.projects) == ["sums"] and STUBS
