"""Tests `bsched-project --complete`: what an older project lacks is added, and all else stays."""
import os
import stat
import tomllib
from pathlib import Path

import pytest
from hypothesis import HealthCheck, given, settings
from hypothesis import strategies as st
from project_machine import Machine

KEYS = {"operator_key", "counts", "averages", "plots", "health"}
# as an operator may have written it: comments, a text and a list with what looks like a table
OLD = """\
# Our project, since 2026
name = "sums"   # as volunteers see it
url = "https://sums.example/p/"
listen = "127.0.0.1:8081"
scheduler = "127.0.0.1:8080"
catalogue = "catalogue.toml"
state = "bridge.db"
archives = [
  # the first year
  "/var/lib/bsched/sums/2026.db",
]
barred = [["a"],
["b"]]
picture_text = \"\"\"
[uploads]
folder = "no"
\"\"\"

# Volunteers make accounts by themselves.
[accounts]
most_a_day = 7 # few
"""


@pytest.fixture
def machine(tmp_path: Path) -> Machine:
    """Makes a folder of projects with one project."""
    made = Machine(tmp_path)
    assert made.make("--url", "https://sums.example/p/", "--port", "18080", "sums").returncode == 0
    return made


def bridge_of(machine: Machine) -> Path:
    """Returns the settings of the project's bridge."""
    return machine.projects / "sums" / "bridge" / "bridge.toml"


def make_older(machine: Machine, text: str = OLD) -> None:
    """Takes away what an older project lacks."""
    folder = machine.projects / "sums"
    bridge_of(machine).write_text(text)
    (folder / "units.toml").unlink()
    (folder / "submitted").rmdir()
    (folder / "environment").write_text("PORT=18080\nBRIDGE_PORT=18081\n")


def all_files(machine: Machine) -> dict[str, tuple[bytes, int, int, int]]:
    """Returns each file of the project with its bytes, mode, owner and group."""
    found = {}
    for path in sorted((machine.projects / "sums").rglob("*")):
        state = path.lstat()
        text = path.read_bytes() if stat.S_ISREG(state.st_mode) else b""
        found[str(path)] = (text, state.st_mode, state.st_uid, state.st_gid)
    return found


def test_a_new_project_lacks_nothing(machine: Machine) -> None:
    before = all_files(machine)
    completed = machine.make("--complete", "sums")
    assert (completed.returncode, completed.stderr) == (0, "")
    assert completed.stdout.endswith("has all that a new project has. Nothing was changed.\n")
    assert all_files(machine) == before


def test_an_older_project_gets_what_a_new_one_has(machine: Machine) -> None:
    new = tomllib.loads(bridge_of(machine).read_text())
    units = (machine.projects / "sums" / "units.toml").read_text()
    environment = (machine.projects / "sums" / "environment").read_text()
    make_older(machine)
    completed = machine.make("--complete", "sums")
    assert (completed.returncode, completed.stderr) == (0, "")
    assert [line for line in completed.stdout.splitlines() if line.startswith("- ")] == [
        "- bridge/bridge.toml: operator_key, counts, averages, plots, health, [uploads]",
        "- units.toml",
        "- the folder submitted",
        "- environment: SWEEP, for bsched-sweep@sums",
    ]
    for command in ("try-restart bsched-bridge@sums", "bsched-project nginx sums", "bsched-copy@sums.timer"):
        assert command in completed.stdout
    made = tomllib.loads(bridge_of(machine).read_text())
    assert made == tomllib.loads(OLD) | {key: new[key] for key in (*KEYS, "uploads")}
    assert new["operator_key"] == machine.key("sums")
    assert (machine.projects / "sums" / "units.toml").read_text() == units
    assert (machine.projects / "sums" / "environment").read_text() == environment
    assert (machine.projects / "sums" / "submitted").stat().st_mode & 0o7777 == 0o2770
    after = all_files(machine)
    again = machine.make("--complete", "sums")
    assert again.returncode == 0 and "Nothing was changed." in again.stdout
    assert all_files(machine) == after


def test_lines_comments_modes_and_owners_stay(machine: Machine) -> None:
    make_older(machine)
    path = bridge_of(machine)
    path.chmod(0o620)
    if os.getuid() == 0:
        os.chown(path, 12345, 54321)
    before = path.stat()
    assert machine.make("--complete", "sums").returncode == 0
    after = path.stat()
    assert (after.st_mode, after.st_uid, after.st_gid) == (before.st_mode, before.st_uid, before.st_gid)
    lines = path.read_text().splitlines()
    kept = iter(lines)
    assert all(line in kept for line in OLD.splitlines()), "the former lines are there, in their order"
    at = lines.index("[accounts]")
    assert lines[at - 1] == "# Volunteers make accounts by themselves." and lines[at - 2] == ""
    assert sorted(one.name for one in path.parent.iterdir()) == ["bridge.toml", "catalogue.toml", "files"]


def test_keys_are_written_before_the_comments_at_the_end(machine: Machine) -> None:
    """Such as a table that the operator has made a comment."""
    begin = OLD.partition("\n# Volunteers")[0]
    make_older(machine, f"{begin}# [accounts]\n# most_a_day = 7\n")
    assert machine.make("--complete", "sums").returncode == 0
    lines = bridge_of(machine).read_text().splitlines()
    at = lines.index("# [accounts]")
    assert lines[at - 1].startswith("health = ") and lines[at + 1] == "# most_a_day = 7"
    assert tomllib.loads("\n".join(lines))["uploads"]["folder"] == "uploads"


def test_what_is_there_is_not_changed(machine: Machine) -> None:
    own = OLD.replace(
        "\n# Volunteers",
        'operator_key = "own-key_1"\ncounts = "c"\naverages = "a"\nplots = "p"\nhealth = "h"\n# V',
    )
    own += '[uploads]\nfolder = "elsewhere"\nmost_bytes = 7\n'
    make_older(machine, own)
    (machine.projects / "sums" / "units.toml").write_text("[copy]\nkeep = 3\n")
    completed = machine.make("--complete", "sums")
    assert completed.returncode == 0 and "bridge.toml" not in completed.stdout
    assert bridge_of(machine).read_text() == own
    assert (machine.projects / "sums" / "units.toml").read_text() == "[copy]\nkeep = 3\n"


@pytest.mark.parametrize("table", ["uploads", "uploads.more", "[uploads]"])
def test_a_table_of_uploads_of_any_form_stays(machine: Machine, table: str) -> None:
    make_older(machine, f'{OLD}[{table}]\nfolder = "mine"\n')
    assert machine.make("--complete", "sums").returncode == 0
    assert bridge_of(machine).read_text().endswith(f'[{table}]\nfolder = "mine"\n')


@pytest.mark.parametrize(
    "text, fault",
    [
        ("name = \n", "bridge.toml: it is no TOML: "),
        ('name = "sums"\nname = "sums"\n', "bridge.toml: it is no TOML: "),
    ],
)
def test_a_file_that_is_no_toml_is_refused(machine: Machine, text: str, fault: str) -> None:
    make_older(machine, text)
    before = all_files(machine)
    completed = machine.make("--complete", "sums")
    assert completed.returncode == 1 and completed.stderr.count("\n") == 1 and fault in completed.stderr
    assert completed.stdout == "" and all_files(machine) == before


def test_the_key_is_not_written_where_everybody_reads_it(machine: Machine) -> None:
    make_older(machine)
    bridge_of(machine).chmod(0o644)
    before = all_files(machine)
    completed = machine.make("--complete", "sums")
    assert completed.returncode == 1 and completed.stderr.endswith(": chmod o= it first\n")
    assert completed.stderr.count("\n") == 1 and all_files(machine) == before


def test_settings_without_a_key_are_refused(machine: Machine) -> None:
    make_older(machine)
    (machine.projects / "sums" / "settings.toml").write_text("max_hosts = 1\n")
    before = all_files(machine)
    completed = machine.make("--complete", "sums")
    assert completed.returncode == 1 and "operator_key is missing, and settings.toml" in completed.stderr
    assert all_files(machine) == before


@pytest.mark.parametrize(
    "name", ["bridge/bridge.toml", "environment", "units.toml", "settings.toml", "bridge"]
)
def test_no_link_is_followed(machine: Machine, name: str) -> None:
    """The user of the service owns the folder, and root must not write where that user leads it."""
    make_older(machine)
    path, elsewhere = machine.projects / "sums" / name, machine.folder / "elsewhere"
    if path.is_dir():
        path.rename(elsewhere)
    elif path.exists():
        elsewhere.write_bytes(path.read_bytes())
        path.unlink()
    else:
        elsewhere.write_text("")
    path.symlink_to(elsewhere)
    before = all_files(machine)
    completed = machine.make("--complete", "sums")
    assert completed.returncode == 1 and completed.stderr.count("\n") == 1
    assert f"/sums/{name}: " in completed.stderr and all_files(machine) == before


@pytest.mark.parametrize(
    "args, status, fault",
    [
        (["--complete", "none"], 1, "there is no project"),
        (["--complete", "--port", "8080", "sums"], 64, "--complete needs only a name"),
        (["--complete", "--example", "sums"], 64, "--complete needs only a name"),
        (["--complete", "--add-bridge", "sums"], 64, "--complete needs only a name"),
        (["--complete"], 64, "a name is needed"),
    ],
)
def test_what_is_not_possible(machine: Machine, args: list[str], status: int, fault: str) -> None:
    completed = machine.make(*args)
    assert completed.returncode == status and completed.stderr.count("\n") == 1 and fault in completed.stderr


def test_a_project_without_a_bridge_is_led_to_one(machine: Machine) -> None:
    bridge_of(machine).parent.rename(machine.folder / "moved")
    completed = machine.make("--complete", "sums")
    assert completed.returncode == 1
    assert completed.stderr.endswith("bsched-project --add-bridge sums makes it\n")


@settings(
    max_examples=12,
    suppress_health_check=[HealthCheck.function_scoped_fixture, HealthCheck.too_slow],
    deadline=None,
)
@given(st.sets(st.sampled_from(sorted(KEYS))), st.booleans(), st.integers(0, 4), st.booleans())
def test_any_part_may_be_missing(
    machine: Machine, present: set[str], has_table: bool, blanks: int, has_end: bool
) -> None:
    lines = OLD.splitlines()
    lines[blanks:blanks] = [f'{key} = "own-{key}"' for key in sorted(present)]
    text = "\n".join(lines if has_table else lines[: lines.index("[accounts]")]) + "\n" * has_end
    bridge_of(machine).write_text(text)
    assert machine.make("--complete", "sums").returncode == 0
    made, old = tomllib.loads(bridge_of(machine).read_text()), tomllib.loads(text)
    assert set(made) == set(old) | KEYS | {"uploads"} and made == made | old
    assert machine.make("--complete", "sums").stdout.endswith("Nothing was changed.\n")
