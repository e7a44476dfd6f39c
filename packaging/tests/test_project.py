"""Tests bsched-project with folders of their own. What needs root or the packages is put off by functions of
the shell."""
import fcntl
import os
import re
import shutil
import subprocess
import tomllib
from fractions import Fraction
from pathlib import Path

import pytest
from hypothesis import HealthCheck, given, settings
from hypothesis import strategies as st
from project_machine import EXAMPLE, PACKAGING, STUBS, TOP, Machine

MADE_KEY = re.compile("[0-9a-f]{32}")


@pytest.fixture
def machine(tmp_path: Path) -> Machine:
    """Makes an empty folder of projects."""
    return Machine(tmp_path)


@pytest.mark.parametrize(
    "line",
    [
        'operator_key = "change-this-key"',
        "operator_key = 'change-this-key'",
        'operator_key="change-this-key"',
        "  operator_key  =  'change-this-key'  # a new one",
    ],
)
def test_a_new_key(machine: Machine, line: str) -> None:
    completed = machine.make("--settings", machine.settings(line), "sums")
    assert (completed.returncode, completed.stderr) == (0, "")
    key = machine.key("sums")
    assert MADE_KEY.fullmatch(key)
    assert f'operator_key = "{key}"' in (machine.projects / "sums" / "bridge" / "bridge.toml").read_text()


def test_a_key_of_ones_own(machine: Machine) -> None:
    settings = machine.settings("operator_key = 'my-own.key_1'")
    assert machine.make("--settings", settings, "sums").returncode == 0
    assert machine.key("sums") == "my-own.key_1"


@pytest.mark.parametrize(
    "line",
    [
        "",
        "operator_key = 7",
        'operator_key = """change-this-key"""',
        'operator_key = "a b"',
        'operator_key = "one-key1"\noperator_key = "two-key2"',
    ],
)
def test_settings_without_a_key_that_can_be_read(machine: Machine, line: str) -> None:
    completed = machine.make("--settings", machine.settings(line), "sums")
    assert (
        completed.returncode == 1 and completed.stderr.count("\n") == 1 and "operator_key" in completed.stderr
    )
    assert list(machine.projects.iterdir()) == []


@pytest.mark.parametrize("signal", ["INT", "TERM", "HUP"])
def test_a_signal_leaves_nothing(machine: Machine, signal: str) -> None:
    completed = machine.make("sums", stubs=f"bsched() {{ kill -{signal} $$; sleep 0.2; }}")
    assert (completed.returncode, completed.stderr) == (1, "bsched-project: ended by a signal\n")
    assert list(machine.projects.iterdir()) == []


def test_a_fault_leaves_nothing(machine: Machine) -> None:
    completed = machine.make("sums", stubs="bsched() { echo 'bsched: settings' >&2; return 1; }")
    assert completed.returncode == 1 and completed.stderr.endswith(": bsched: settings\n")
    assert list(machine.projects.iterdir()) == []


def test_projects_are_made_one_after_the_other(machine: Machine) -> None:
    descriptor = os.open(machine.projects, os.O_RDONLY)
    try:
        fcntl.flock(descriptor, fcntl.LOCK_EX)
        completed = machine.make("sums")
    finally:
        os.close(descriptor)
    assert completed.returncode == 1 and "another bsched-project works" in completed.stderr
    assert machine.make("sums").returncode == 0
    assert "exists already" in machine.make("sums").stderr
    assert machine.make("others").returncode == 0
    ports = [re.findall(r"\d+", (one / "environment").read_text()) for one in machine.projects.iterdir()]
    assert len({port for pair in ports for port in pair}) == 4


def test_the_bridge_of_an_older_project(machine: Machine) -> None:
    assert machine.make("sums", stubs="mv $TEMPLATES/project/bridge $TEMPLATES").returncode == 0
    shutil.move(machine.templates / "bridge", machine.templates / "project")
    folder = machine.projects / "sums"
    assert not (folder / "bridge").exists()
    (folder / "settings.toml").write_text("operator_key = 'my-own.key_1'\n")
    assert machine.make("--add-bridge", "sums").returncode == 0
    assert 'operator_key = "my-own.key_1"' in (folder / "bridge" / "bridge.toml").read_text()


@pytest.mark.parametrize(
    "refused, done",
    [
        ("none", ["accounts", "apps", "versions", "workunits", "systemctl"]),
        ("apps", ["accounts", "apps"]),
    ],
)
def test_the_printed_commands_end_at_a_refused_import(
    machine: Machine,
    refused: str,
    done: list[str],
) -> None:
    printed = machine.make("--example", "sums").stdout.partition("\nThe bridge: ")[0]
    commands = "\n".join(line for line in printed.splitlines() if line.startswith("  "))
    commands = commands.partition("bsched-copy@")[0].rpartition("\n")[0]
    stubs = f"bsched() {{ echo $5; [ $5 != {refused} ]; }}\nsystemctl() {{ echo systemctl; }}\n"
    command = ["bash", "-c", f"{STUBS}{stubs}{commands}"]
    completed = subprocess.run(command, capture_output=True, text=True, timeout=600)
    assert completed.stdout.split() == done and completed.stderr == ""


# ---- Settings


def of_project(machine: Machine, name: str) -> dict[str, int]:
    """Returns the settings of a project that are numbers."""
    settings = tomllib.loads((machine.projects / name / "settings.toml").read_text())
    return {key: value for key, value in settings.items() if type(value) is int}


def shown_in(text: str, begins: str) -> dict[str, int]:
    """Returns the settings that are numbers in a text, from a line on."""
    found = re.findall(r"^(\w+) = (\d+)\b", text[text.index(begins) :], re.MULTILINE)
    return {key: int(value) for key, value in found[:5]}


def test_the_settings_of_jobs_and_computers(machine: Machine) -> None:
    """A computer of 64 processors with jobs of 600 seconds has one job for each processor, and what it does
    in twice 60 seconds: 64 * (1 + 120 / 600) = 76.8. It does 9,216 jobs a day, and may get twice as many."""
    completed = machine.make("--job-time", "10m", "--processors", "64", "sums")
    assert of_project(machine, "sums") == {
        "daily_result_quota": 18432,
        "max_hosts": 100000,
        "max_wus_in_progress": 77,
        "max_wus_to_send": 39,
        "request_delay": 60,
    }
    lines = [line for line in completed.stdout.splitlines() if line.startswith("- with")]
    assert lines == [
        "- with 1 processor it is kept busy by jobs of 5 seconds and more",
        "- with 4 processors it is kept busy by jobs of 19 seconds and more",
        "- with 16 processors it is kept busy by jobs of 75 seconds and more",
        "- with 64 processors it is kept busy by jobs of 10 minutes and more",
        "- with 256 processors it never has a job for each of them",
    ]


def test_the_pages_have_the_settings_that_a_project_gets_without_options(machine: Machine) -> None:
    assert machine.make("sums").returncode == 0
    numbers = of_project(machine, "sums")
    page = (TOP / "docs" / "SET_UP.md").read_text()
    assert shown_in(page[page.index("\n## Settings and URL") :], "daily_result_quota = ") == numbers
    manual = (PACKAGING / "man" / "bsched-settings.5").read_text()
    assert shown_in(manual, "daily_result_quota = ") == numbers


@settings(
    max_examples=15,
    suppress_health_check=[*settings().suppress_health_check, HealthCheck.function_scoped_fixture],
)
@given(st.integers(1, 100 * 86400), st.integers(1, 256))
def test_the_rule_of_the_settings(machine: Machine, job: int, processors: int) -> None:
    shutil.rmtree(machine.projects / "sums", ignore_errors=True)
    completed = machine.make("--job-time", str(job), "--processors", str(processors), "sums")
    assert (completed.returncode, completed.stderr) == (0, "")
    numbers = of_project(machine, "sums")
    needed = processors * (1 + Fraction(2 * 60, job))
    assert numbers["max_wus_in_progress"] >= min(needed, Fraction(1000))
    assert numbers["max_wus_in_progress"] < needed + 1
    assert numbers["max_wus_to_send"] >= min(Fraction(numbers["max_wus_in_progress"], 2), Fraction(100))
    assert numbers["daily_result_quota"] >= min(2 * Fraction(processors * 86400, job), Fraction(1_000_000))
    assert numbers["daily_result_quota"] >= 2 * numbers["max_wus_in_progress"]
    ranges = {"max_wus_in_progress": 1000, "max_wus_to_send": 100, "daily_result_quota": 1_000_000}
    assert all(1 <= numbers[name] <= most for name, most in ranges.items())


def test_a_real_project_has_no_accounts(machine: Machine) -> None:
    assert machine.make("--url", "https://sums.example/", "sums").returncode == 0
    for kind in ("accounts", "apps", "versions", "workunits"):
        header = (EXAMPLE / f"{kind}.csv").read_text().splitlines()[0]
        assert (machine.projects / "sums" / f"{kind}.csv").read_text() == f"{header}\n"
    bridge = tomllib.loads((machine.projects / "sums" / "bridge" / "bridge.toml").read_text())
    ports = (machine.projects / "sums" / "environment").read_text().splitlines()
    port, bridge_port = (line.partition("=")[2] for line in ports[:2])
    assert ports[2:] == ['SWEEP="--tables /var/backups/bsched/sums"']
    units = tomllib.loads((machine.projects / "sums" / "units.toml").read_text())
    assert units["copy"]["folder"] == "/var/backups/bsched/sums"
    assert bridge == {
        "name": "sums",
        "url": "https://sums.example/",
        "listen": f"127.0.0.1:{bridge_port}",
        "scheduler": f"127.0.0.1:{port}",
        "operator_key": machine.key("sums"),
        "catalogue": "catalogue.toml",
        "state": "bridge.db",
        "counts": "../units/counts.json",
        "averages": "../units/averages.json",
        "plots": "../units/plots",
        "health": "../units/findings.json",
        "accounts": {"most_a_day": 100, "address_field": "X-Real-IP"},
        "uploads": {
            "folder": "uploads",
            "most_bytes": 50_000_000_000,
            "most_result_bytes": 100_000_000,
        },
    }


def test_the_example_has_accounts(machine: Machine) -> None:
    assert machine.make("--example", "sums").returncode == 0
    assert "ann-key,Ann" in (machine.projects / "sums" / "accounts.csv").read_text()
    assert of_project(machine, "sums")["max_hosts"] == 100


def test_questions_on_a_terminal(machine: Machine) -> None:
    status, shown = machine.answered("long\n2h\n\n\ny\n", "sums")
    assert status == 0 and "'long' is not possible." in shown and "[64]" in shown
    # 64 * (1 + 120 / 7200) = 65.07
    assert of_project(machine, "sums")["max_wus_in_progress"] == 66
    bridge = (machine.projects / "sums" / "bridge" / "bridge.toml").read_text()
    assert 'url = "https://sums.example/project/"' in bridge
    status, shown = machine.answered("\n\n\n\n", "others")
    assert status == 1 and shown.endswith("nothing was made\n")
    assert [path.name for path in machine.projects.iterdir()] == ["sums"]


def test_no_question_if_the_options_say_all(machine: Machine) -> None:
    args = ("--job-time", "1d", "--processors", "8", "--url", "http://sums.example/p/", "sums")
    assert machine.answered("", *args)[0] == 0


def test_the_example_asks_nothing(machine: Machine) -> None:
    end = "\x04"  # of the terminal: a question would fail
    status, shown = machine.answered(end, "--example", "trial")
    assert status == 0 and "?" not in shown and "trial is made; its scheduler" in shown
    bridge = tomllib.loads((machine.projects / "trial" / "bridge" / "bridge.toml").read_text())
    assert bridge["url"] == f"http://{bridge['listen']}/"
    status, shown = machine.answered(end, "--example", "trial")
    assert status == 1 and "exists already" in shown


def test_the_fault_in_a_file_of_settings_is_named(machine: Machine) -> None:
    stubs = (
        "bsched() { echo 'bsched: settings' >&2; return 1; }\n"
        f'bsched-tools() {{ PYTHONPATH={TOP}/tools:{TOP}/files /usr/bin/python3 -m bsched_tools "$@"; }}\n'
    )
    path = machine.settings("max_host = 7\noperator_key = 'my-own.key_1'")
    completed = machine.make("--settings", path, "sums", stubs=stubs)
    assert completed.returncode == 1 and completed.stderr.count("\n") == 1
    assert "max_host is not a setting" in completed.stderr


@pytest.mark.parametrize(
    "args",
    [
        ["--job-time", "0", "x"],
        ["--job-time", "5w", "x"],
        ["--job-time", "101d", "x"],
        ["--processors", "many", "x"],
        ["--processors", "0", "x"],
        ["--url", "sums.example", "x"],
        ["--url", "https://Sums.example/", "x"],
        ["--url", "https://sums.example", "x"],
        ["--settings", "a", "--processors", "4", "x"],
        ["--example", "--url", "https://sums.example/", "x"],
    ],
)
def test_options_that_are_not_possible(machine: Machine, args: list[str]) -> None:
    completed = machine.make(*args)
    assert completed.returncode == 64 and completed.stderr.count("\n") == 1 and completed.stdout == ""
