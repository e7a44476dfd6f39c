"""Runs what bsched-project prints, with the tools of this clone and the twin in place of bsched."""
import re
import shutil
import sqlite3
import subprocess
import sys
import tomllib
from contextlib import closing
from pathlib import Path

import pytest
from moved_projects import MORE_STUBS
from project_machine import STUBS, TOP, Machine

TWIN = TOP / "bridge" / "trial" / "twin"
OWN_WORDS = {"APP": "squares", "BATCH": "first"}
# the tools look for projects in the test's folder, and import by the twin
TOOLS = """
import sys
from pathlib import Path
from bsched_tools import imports, projects
projects.PROJECTS = Path(sys.argv.pop(1))
projects.PROGRAM = imports.PROGRAM = Path(sys.argv.pop(1))
from bsched_tools.__main__ import main
sys.exit(main())
"""


@pytest.fixture
def machine(tmp_path: Path) -> Machine:
    """Makes an empty folder of projects."""
    return Machine(tmp_path)


def stubs_of(machine: Machine) -> str:
    """Returns the stubs with which printed commands run: systemctl says what it enables."""
    path = f"PYTHONPATH={TOP}/tools:{TOP}/files:{TOP}/bridge PYTHONDONTWRITEBYTECODE=1"
    return (
        f"{MORE_STUBS}\n"
        f"bsched-tools() {{ {path} {sys.executable} -c '{TOOLS}' {machine.projects} {TWIN} \"$@\"; }}\n"
        f'bsched-bridge() {{ {path} {sys.executable} -m bsched_bridge "$@"; }}\n'
        f'systemctl() {{ echo "$*"; }}\n'
        'bsched-project() { echo "bsched-project $*"; }\n'
    )


def commands_in(printed: str) -> str:
    """Returns the commands in what bsched-project prints: the lines that begin with two blanks."""
    steps = printed[printed.index(" is made") :]
    return "\n".join(line[2:] for line in steps.splitlines() if line.startswith("  "))


def run_printed(machine: Machine, printed: str, stubs: str) -> "subprocess.CompletedProcess[str]":
    """Runs the printed commands. The first one that fails ends it."""
    command = ["bash", "-c", f"{STUBS}{stubs}set -e\n{printed}"]
    return subprocess.run(command, capture_output=True, text=True, timeout=600, cwd=machine.folder)


def rows_in(machine: Machine, kind: str) -> int:
    """Returns how many rows of a kind the tables of the project have."""
    with closing(sqlite3.connect(machine.projects / "sums" / "project.db")) as tables:
        count = tables.execute(f"SELECT count(*) FROM {kind}").fetchone()[0]
    assert isinstance(count, int)
    return count


def written(machine: Machine) -> dict[str, str]:
    """Writes a program and three inputs, and returns what takes the place of each word in capitals."""
    program, inputs = machine.folder / "squares.py", machine.folder / "inputs"
    program.write_text("#!/usr/bin/python3\n")
    inputs.mkdir()
    for number in range(3):
        (inputs / f"part_{number}").write_text(f"{number}\n")
    return {**OWN_WORDS, "PROGRAM": str(program), "INPUTS": str(inputs)}


def filled(commands: str, words: dict[str, str]) -> str:
    """Returns commands with the operator's words in place of those in capitals."""
    found = set(re.findall(r"\b[A-Z]{3,}\b", commands))
    assert found == set(words), "every word in capitals is one that the operator replaces"
    for word, own in words.items():
        commands = re.sub(rf"\b{word}\b", own, commands)
    return commands


@pytest.mark.parametrize("is_added_later", [False, True])
def test_a_new_projects_commands_lead_from_a_program_to_jobs(machine: Machine, is_added_later: bool) -> None:
    completed = machine.make("--url", "https://sums.example/p/", "sums", stubs=stubs_of(machine))
    if is_added_later:
        shutil.rmtree(machine.projects / "sums" / "bridge")
        completed = machine.make(
            "--add-bridge", "--url", "https://sums.example/p/", "sums", stubs=stubs_of(machine)
        )
    assert (completed.returncode, completed.stderr) == (0, "")
    commands = filled(commands_in(completed.stdout), written(machine))
    done = run_printed(machine, commands, stubs_of(machine))
    assert done.returncode == 0 and done.stderr == "", done.stderr
    enabled = [line for line in done.stdout.splitlines() if line.startswith("enable")]
    timers = ["enable --now bsched-copy@sums.timer bsched-health@sums.timer"]
    assert enabled == [
        "enable --now bsched@sums bsched-tick@sums.timer bsched-bridge@sums",
        *([] if is_added_later else timers),
    ]
    assert done.stdout.splitlines()[-1] == "bsched-project nginx sums"
    assert (rows_in(machine, "app"), rows_in(machine, "unit")) == (1, 3)
    catalogue = tomllib.loads((machine.projects / "sums" / "bridge" / "catalogue.toml").read_text())
    assert [app["name"] for app in catalogue["app"]] == ["squares"]
    assert machine.make("nginx", "sums").returncode == 0


def test_the_commands_of_the_example(machine: Machine) -> None:
    shutil.copytree(TOP / "bridge" / "example" / "files", machine.templates / "example" / "bridge" / "files")
    shutil.copy(TOP / "bridge" / "example" / "catalogue.toml", machine.templates / "example" / "bridge")
    completed = machine.make("--example", "sums", stubs=stubs_of(machine))
    assert (completed.returncode, completed.stderr) == (0, "")
    commands = commands_in(completed.stdout)
    assert "--check" in commands
    # the check wants a scheduler that answers
    commands = re.sub(r"runuser .+ --check &&", "", commands)
    done = run_printed(machine, commands, stubs_of(machine))
    assert done.returncode == 0 and done.stderr == "", done.stderr
    assert (rows_in(machine, "app"), rows_in(machine, "unit")) == (1, 2)
    assert (machine.projects / "sums" / "bridge" / "sum_1.signature").read_text() != ""


@pytest.mark.parametrize("has_tools", [False, True])
def test_the_commands_of_a_project_without_a_bridge(machine: Machine, has_tools: bool) -> None:
    shutil.rmtree(machine.templates / "project" / "bridge")
    stubs = stubs_of(machine)
    if not has_tools:
        stubs += "unset -f bsched-tools\n"
    completed = machine.make("sums", stubs=stubs)
    assert (completed.returncode, completed.stderr) == (0, "")
    done = run_printed(machine, commands_in(completed.stdout), stubs)
    assert done.returncode == 0 and done.stderr == "", done.stderr
    assert "enable --now bsched@sums bsched-tick@sums.timer" in done.stdout


def test_a_new_project_is_not_led_to_what_is_not_there(machine: Machine) -> None:
    """Each page that is named is in docs, and only the example has files to sign."""
    printed = machine.make("--url", "http://127.0.0.1:8081/", "sums").stdout
    assert "sum_1" not in printed and "example" not in printed.replace("sums.example", "")
    assert "nginx" not in printed  # it is for https
    named = re.findall(r"/usr/share/doc/bsched/(docs/\w+\.md)", printed)
    assert named == ["docs/FIRST_HUNDRED_JOBS.md", "docs/FIRST_VOLUNTEER.md"]
    assert all((TOP / name).is_file() for name in named)
    titles = re.findall(r"^## (\d+)\. (.+)", (TOP / named[1]).read_text(), re.MULTILINE)
    assert titles[2] == ("3", "Say what there is to do") and titles[7] == ("8", "Start the bridge")
