"""Tests `bsched-project restore` with the tools of this clone. The twin stands for bsched, and a function of
the shell for systemctl: it writes down what it is asked."""
import os
import re
import shutil
import signal
import sqlite3
import subprocess
import sys
import time
from contextlib import closing
from pathlib import Path

import pytest
from moved_projects import MAKE_STATE, MORE_STUBS
from project_machine import TOP, Machine

NEWEST, OLDER = "project-20261128T120000.123Z.db", "project-20261127T120000.123Z.db"
UNITS = ["bsched@sums", "bsched-tick@sums.timer", "bsched-bridge@sums"]
FORMER = re.compile(r"before-\d{8}T\d{6}\.\d{3}Z")
# bsched@sums, its tick and its bridge run: the scheduler is one that systemd tries to start
STUBS = f"""{MORE_STUBS}
runuser() {{ shift 3; "$@"; }}
systemctl() {{
  echo "$*" >> $PROJECTS/../systemctl
  [ "$1" != is-active ] || return 1
  [ "$1" = show ] || return 0
  case ${{@: -1}} in
    bsched@sums) echo activating ;;
    bsched-tick@sums.timer | bsched-bridge@sums) echo active ;;
    *) echo inactive ;;
  esac
}}
"""
# a function of a test can call the one above
FIRST = 'eval "first_$(declare -f systemctl)"\n'
TOOLS = [sys.executable, "-m", "bsched_tools"]
PATH = {"PYTHONPATH": f"{TOP}/tools:{TOP}/files:{TOP}/bridge", "PYTHONDONTWRITEBYTECODE": "1"}


class Project:
    """A project with a bridge that ran, whose tables have the account Ann, and two copies without her."""

    def __init__(self, folder: Path, made: Path) -> None:
        self.machine = Machine(folder)
        self.folder, self.copies = self.machine.projects / "sums", folder / "backups" / "sums"
        for name in ("projects", "backups"):
            shutil.copytree(made / name, folder / name, dirs_exist_ok=True)
        units = self.folder / "units.toml"
        units.write_text(units.read_text().replace("/var/backups/bsched", str(folder / "backups")))

    def restore(self, *args: str, stubs: str = "") -> "subprocess.CompletedProcess[str]":
        """Restores a copy."""
        return self.machine.make("restore", "sums", *args, stubs=STUBS + stubs)

    def accounts(self) -> int:
        """Returns how many accounts the tables have."""
        return accounts_in(self.folder / "project.db")

    def former(self) -> list[Path]:
        """Returns the folders of former files, the oldest first."""
        return sorted(path for path in self.folder.iterdir() if FORMER.fullmatch(path.name))

    def asked(self, word: str) -> list[str]:
        """Returns what systemctl was asked to stop or to start."""
        path = self.machine.folder / "systemctl"
        lines = path.read_text().splitlines() if path.exists() else []
        return [line.removeprefix(f"{word} ") for line in lines if line.startswith(f"{word} ")]

    def left(self) -> list[str]:
        """Returns the names of what a restore left half done."""
        folders = (self.machine.projects, self.folder, self.folder / "bridge")
        return [path.name for folder in folders for path in folder.glob(".*")]

    def is_as_before(self) -> bool:
        """Returns whether the former files are in their place, and nothing is left."""
        return self.accounts() == 1 and self.former() == [] and self.left() == []


def accounts_in(path: Path) -> int:
    """Returns how many accounts a file has."""
    with closing(sqlite3.connect(path)) as tables:
        count = tables.execute("SELECT count(*) FROM account").fetchone()[0]
    assert isinstance(count, int)
    return count


def run(folder: Path, *command: str) -> None:
    """Runs a command, with the modules of this clone, in a folder."""
    subprocess.run(command, check=True, cwd=folder, capture_output=True, env=PATH)


@pytest.fixture(scope="module")
def made(tmp_path_factory: pytest.TempPathFactory) -> Path:
    """Makes a project with copies, once for all tests."""
    folder = tmp_path_factory.mktemp("made")
    assert Machine(folder).make("sums", stubs=STUBS).returncode == 0
    project, copies = folder / "projects" / "sums", folder / "backups" / "sums"
    copies.mkdir(parents=True)
    for name in (OLDER, NEWEST):
        run(project, *TOOLS, "copy", "--tables", "project.db", "--to", str(copies / name))
    (folder / "one.csv").write_text("authenticator,name\nann-key,Ann\n")
    words = [
        "--tables",
        "project.db",
        "--kind",
        "accounts",
        "--batch",
        "one",
        "--file",
        str(folder / "one.csv"),
    ]
    run(project, str(TOP / "bridge" / "trial" / "twin"), "import", *words)
    run(project / "bridge", sys.executable, "-c", MAKE_STATE)
    return folder


@pytest.fixture
def project(made: Path, tmp_path: Path) -> Project:
    """Returns a project of the test's own."""
    return Project(tmp_path, made)


def test_the_newest_copy(project: Project) -> None:
    (project.folder / "project.db-shm").write_text("a former file")
    completed = project.restore()
    assert (completed.returncode, completed.stderr) == (0, "")
    (former,) = project.former()
    copy = project.copies / NEWEST
    assert completed.stdout.startswith(f"Restoring {copy}, of 2026-11-28 12:00:00 UTC.\n")
    for line in (
        f"{copy} is in the place of the tables.",
        f"The former files are in {former}.",
        f"Started again: {' '.join(UNITS)}",
        "- Take a copy at once, since the tools read the newest one: bsched-tools copy --project sums",
        "- The bridge keeps its state file, and imports its accounts again.",
        f"- Begin a new cursor of results: remove {project.folder}/units/results/cursor.",
    ):
        assert f"{line}\n" in completed.stdout
    assert project.accounts() == 0 and (project.folder / "project.db").stat().st_mode & 0o777 == 0o600
    assert (former / "project.db-shm").read_text() == "a former file"
    (former / "project.db-shm").unlink()
    assert accounts_in(former / "project.db") == 1
    assert list(dict.fromkeys(project.asked("stop"))) == [UNITS[2], UNITS[1], UNITS[0]]
    assert project.asked("start") == [" ".join(UNITS)]
    assert project.left() == [] and copy.exists() and (project.folder / "bridge" / "bridge.db").exists()


@pytest.mark.parametrize("is_path", [False, True])
def test_a_copy_of_ones_choice(project: Project, is_path: bool, tmp_path: Path) -> None:
    word = OLDER
    if is_path:
        word = str(tmp_path / "elsewhere.db")
        shutil.copy(project.copies / OLDER, word)
        os.utime(word, (1_800_000_000, 1_800_000_000))
    completed = project.restore(word)
    assert (completed.returncode, completed.stderr) == (0, "")
    moment = "2027-01-15 08:00:00" if is_path else "2026-11-27 12:00:00"
    assert f"{word}, of {moment} UTC.\n" in completed.stdout and project.accounts() == 0


def test_the_way_back(project: Project) -> None:
    """A second restore puts back what the first one moved away."""
    assert project.restore().returncode == 0
    (former,) = project.former()
    target = project.machine.folder / "back.db"
    run(former, *TOOLS, "copy", "--tables", "project.db", "--to", str(target))
    assert project.restore(str(target)).returncode == 0
    assert project.accounts() == 1 and len(project.former()) == 2


@pytest.mark.parametrize("bridge", ["", " bsched-bridge@sums"])
def test_a_project_that_is_stopped(project: Project, bridge: str) -> None:
    if not bridge:
        shutil.rmtree(project.folder / "bridge")
    completed = project.restore(stubs="systemctl() { [ $1 != start ] || exit 9; echo inactive; }\n")
    assert (completed.returncode, completed.stderr) == (0, "")
    line = (
        f"None of its units ran. To start them: systemctl start bsched@sums{bridge} bsched-tick@sums.timer\n"
    )
    assert line in completed.stdout and ("The bridge keeps" in completed.stdout) == bool(bridge)


def test_spoiled_tables_and_lost_tables(project: Project) -> None:
    (project.folder / "project.db").write_bytes(b"spoiled")
    assert project.restore().returncode == 0
    assert (project.former()[0] / "project.db").read_bytes() == b"spoiled" and project.accounts() == 0
    for path in project.folder.glob("project.db*"):
        path.unlink()
    completed = project.restore()
    assert completed.returncode == 0 and "There were no former files.\n" in completed.stdout
    assert len(project.former()) == 1 and project.accounts() == 0


@pytest.mark.parametrize("has_copy", [False, True])
def test_a_lost_state_file(project: Project, has_copy: bool) -> None:
    bridge = project.folder / "bridge"
    state = project.copies / "bridge-20261128T120001.000Z.state"
    if has_copy:
        shutil.copy(bridge / "bridge.db", state)
    for path in bridge.glob("bridge.db*"):
        path.unlink()
    (bridge / "bridge.db-wal").write_text("a log of the lost file")
    completed = project.restore()
    assert (completed.returncode, completed.stderr) == (0, "")
    if has_copy:
        assert f"- The bridge's state file was lost. {state} is in its place.\n" in completed.stdout
        assert (bridge / "bridge.db").read_bytes() == state.read_bytes()
        assert (project.former()[0] / "bridge" / "bridge.db-wal").read_text() == "a log of the lost file"
    else:
        assert "there is no copy of one" in completed.stdout and not (bridge / "bridge.db").exists()
    assert (bridge / "bridge.db-wal").exists() != has_copy and project.left() == []


def test_a_spoiled_copy_of_the_state(project: Project) -> None:
    (project.folder / "bridge" / "bridge.db").unlink()
    (project.copies / "bridge-20261128T120001.000Z.state").write_bytes(b"spoiled")
    completed = project.restore()
    assert completed.returncode == 1 and completed.stderr.count("\n") == 1
    assert "can't be restored: file is not a database: move it away" in completed.stderr
    assert project.is_as_before()
    assert project.asked("stop") == []


@pytest.mark.parametrize("is_state_lost", [False, True])
def test_a_path_without_the_folder_of_copies(project: Project, tmp_path: Path, is_state_lost: bool) -> None:
    """The folder of copies is not known. It is needed only for a lost state file, which may have a copy."""
    path = shutil.copy(project.copies / OLDER, tmp_path / "a copy.db")
    units = project.folder / "units.toml"
    units.write_text("[copy\n")
    if is_state_lost:
        (project.folder / "bridge" / "bridge.db").unlink()
    completed = project.restore(str(path))
    if is_state_lost:
        fault = f"the bridge's state file is lost, and its copies can't be listed: {units}: is not TOML"
        assert completed.returncode == 1 and completed.stderr.startswith(f"bsched-project: {fault}")
        assert project.is_as_before() and project.asked("stop") == []
    else:
        assert (completed.returncode, completed.stderr) == (0, "")
        assert completed.stdout.startswith(f"Restoring {path}, of ") and project.accounts() == 0


def test_a_link_is_not_the_newest_copy(project: Project) -> None:
    """Whoever owns the folder of copies could have root read another file by it."""
    (project.copies / "project-20990101T000000.000Z.db").symlink_to("/etc/hostname")
    completed = project.restore()
    assert (completed.returncode, completed.stderr) == (0, "")
    assert completed.stdout.startswith(f"Restoring {project.copies / NEWEST}, of ")


def spoil(project: Project, what: str) -> None:
    """Spoils the newest copy in one way."""
    copy = project.copies / NEWEST
    if what == "cut":
        copy.write_bytes(copy.read_bytes()[:8192])
    elif what == "text":
        copy.write_text("no tables")
    elif what == "log":
        copy.with_name(f"{copy.name}-wal").write_text("a log")
    elif what == "schema":
        with closing(sqlite3.connect(copy)) as tables:
            tables.execute("UPDATE setting SET value = 99 WHERE name = 'schema'")
            tables.commit()
    elif what == "page":
        data = bytearray(copy.read_bytes())
        data[4096:8192] = b"\xff" * 4096
        copy.write_bytes(data)
    elif what == "project":
        with closing(sqlite3.connect(copy)) as tables:
            tables.execute("UPDATE setting SET value = 'another-key' WHERE name = 'operator_key'")
            tables.commit()
    elif what == "units":
        (project.folder / "units.toml").write_text("[copy\n")
    elif what == "none":
        shutil.rmtree(project.copies)


@pytest.mark.parametrize(
    "what, fault",
    [
        ("cut", "cut off"),
        ("text", "it is not a SQLite database"),
        ("log", "has a log"),
        ("schema", "a newer one"),
        ("page", "can't be restored"),
        ("project", "is of another project"),
        ("none", "there is no copy of the tables in"),
        ("units", "units.toml: is not TOML"),
    ],
)
def test_a_copy_that_is_refused(project: Project, what: str, fault: str) -> None:
    """No unit is stopped for it."""
    spoil(project, what)
    completed = project.restore()
    assert completed.returncode == 1 and completed.stderr.count("\n") == 1
    assert fault in completed.stderr and "restore a copy" not in completed.stderr
    assert project.is_as_before() and project.asked("stop") == []


@pytest.mark.parametrize(
    "args, stubs, status, fault",
    [
        (["restore"], "", 64, "restore needs more words"),
        (["restore", "../sums"], "", 64, "is no name of a project"),
        (["restore", "none"], "", 1, "there is no project"),
        (["restore", "sums"], "id() { echo 1000; }\n", 1, "only root can restore a project"),
        (["restore", "sums", "none.db"], "", 1, "none.db is no copy"),
        (["restore", "sums", "/"], "", 1, "/ is no copy"),
        (["restore", "sums", "/none/none.db"], "", 1, "/none/none.db is no copy"),
        (["restore", "sums", "-none.db"], "", 1, "-none.db is no copy"),
    ],
)
def test_commands_that_are_not_possible(
    project: Project, args: list[str], stubs: str, status: int, fault: str
) -> None:
    completed = project.machine.make(*args, stubs=STUBS + stubs)
    assert completed.returncode == status and completed.stderr.count("\n") == 1
    assert fault in completed.stderr and project.is_as_before()


# what fails, and when: a unit that does not stop, and each step in the project's folder
FAULTS = {
    "stop": 'systemctl() { [ "$1" != stop ] || return 1; [ "$1" != show ] || echo active; }\n',
    "aside": 'mv() { [[ "$*" != *"/before-"* ]] || return 1; command mv "$@"; }\n',
    "log": 'mv() { [[ "$*" != *db-shm*/before-* ]] || return 1; command mv "$@"; }\n',
    "place": 'mv() { [[ "$*" != *"/.restored.db "* ]] || return 1; command mv "$@"; }\n',
    "signal": 'mv() { command mv "$@"; [[ "$*" != *" "*/before-*/project.db ]] || kill -TERM $$; }\n',
}


@pytest.mark.parametrize("what", FAULTS)
def test_a_fault_leaves_the_former_files(project: Project, what: str) -> None:
    (project.folder / "project.db-shm").write_text("")
    completed = project.restore(stubs=FAULTS[what])
    assert completed.returncode == 1 and project.is_as_before()
    first, second = completed.stderr.splitlines()
    assert first.startswith("bsched-project: ") and "the former files are in their place" in second
    if what != "stop":
        assert project.asked("start") == [" ".join(UNITS)]
    assert project.restore().returncode == 0 and project.accounts() == 0


def test_a_program_that_has_the_tables(project: Project) -> None:
    with closing(sqlite3.connect(project.folder / "project.db", isolation_level=None)) as tables:
        tables.execute("BEGIN EXCLUSIVE")
        completed = project.restore()
    assert completed.returncode == 1 and "a program has" in completed.stderr.splitlines()[0]
    assert project.is_as_before() and project.asked("start") == [" ".join(UNITS)]


def test_units_that_do_not_start(project: Project) -> None:
    stub = (
        'eval "first_$(declare -f systemctl)"; systemctl() { [ "$1" != start ] && first_systemctl "$@"; }\n'
    )
    completed = project.restore(stubs=stub)
    assert completed.returncode == 1 and project.accounts() == 0
    first, second = completed.stderr.splitlines()
    assert "don't start" in first and f"run systemctl start {' '.join(UNITS)}" in second
    assert str(project.former()[0]) in second and project.left() == []


@pytest.mark.parametrize("step", ["/before-", "/.restored.db"])
def test_a_second_run_after_a_kill(project: Project, step: str) -> None:
    """The killed run had stopped the units. The second one knows which, also if a run between them fails."""
    stub = f'mv() {{ [[ "$*" != *"{step}"* ]] || kill -KILL $$; command mv "$@"; }}\n'
    assert project.restore(stubs=stub).returncode == -signal.SIGKILL
    idle = 'systemctl() { echo "$*" >> $PROJECTS/../systemctl; [ "$1" != show ] || echo inactive; }\n'
    time.sleep(0.01)  # for another name of the folder
    assert project.restore("none.db", stubs=idle).returncode == 1
    spoiled = project.copies / "project-20990101T000000.000Z.db"
    spoiled.write_text("no tables")
    assert project.restore(stubs=idle).returncode == 1
    spoiled.unlink()
    completed = project.restore(stubs=idle)
    assert (completed.returncode, completed.stderr) == (0, "")
    assert project.asked("start") == [" ".join(UNITS)] and project.accounts() == 0
    assert project.left() == []
    assert [accounts_in(path / "project.db") for path in project.former() if any(path.iterdir())] == [1]


def test_no_room(project: Project) -> None:
    completed = project.restore(
        stubs="sh() { echo 'cat: write error: No space left on device' >&2; return 1; }\n"
    )
    text = f"bsched-project: the copy can't be written to {project.folder}: No space left on device\n"
    assert (completed.returncode, completed.stderr) == (1, text)
    assert project.is_as_before() and project.asked("stop") == []


def test_no_module_of_the_current_folder_is_loaded(project: Project) -> None:
    """Root may be in the folder of the project, whose owner can put modules there."""
    (project.folder / "tomllib.py").write_text("raise SystemExit(7)\n")
    command = project.machine.command("restore", "sums", stubs=STUBS)
    completed = subprocess.run(command, cwd=project.folder, capture_output=True, text=True, timeout=600)
    assert (completed.returncode, completed.stderr) == (0, "")
    for path in (TOP / "packaging" / "library").iterdir():
        assert "python3 -c" not in path.read_text(), path


def test_a_project_of_a_cluster(project: Project) -> None:
    options = Path(f"{project.machine.projects}-pair") / "sums" / "options"
    options.parent.mkdir(parents=True)
    options.write_text("")
    runs = FIRST + 'systemctl() { [ "$1" = is-active ] || first_systemctl "$@"; }\n'
    completed = project.restore(stubs=f"{runs}crm_attribute() {{ echo false; }}\n")
    assert completed.returncode == 1 and "maintenance-mode=true" in completed.stderr
    assert project.is_as_before() and project.asked("stop") == []
    assert project.restore(stubs=f"{runs}crm_attribute() {{ echo true; }}\n").returncode == 0
