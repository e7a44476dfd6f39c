"""Tests `bsched-project pair`: its files and commands, what it refuses, and how it compares two machines.
Programs that need root or a cluster are scripts of the test.
"""
import dataclasses
import json
import re
import socket
import subprocess
from collections.abc import Callable
from ipaddress import IPv4Address, IPv4Interface
from pathlib import Path

import pytest
from hypothesis import given
from hypothesis import strategies as st
from pair_made import ALPHA, BETA, HOME, PAIR
from project_machine import Machine as Projects

from bsched_pair import check, command, machine
from bsched_pair.check import State, differences, faults_of_set_up, files_outside, installed_times
from bsched_pair.files import ANYWHERE, BLIND, STAY, files_of
from bsched_pair.pair import Fault, Times, Vote
from bsched_pair.steps import CLUSTER, INSTALLED, KEY, PACKAGES, steps
from bsched_pair.units import Unit, possible_units, used_units

EXPECTED = Path(__file__).resolve().parent / "pair"
WORDS = [
    *("sums", "--machine", "alpha=10.77.0.1,10.77.1.1", "--machine", "beta=10.77.0.2,10.77.1.2"),
    *("--vote", "gamma=10.77.0.3", "--address", "10.77.0.100/24", "--disk", "/dev/vg0/sums"),
]
Programs = Callable[[str, str], None]


@pytest.fixture
def programs(tmp_path: Path, monkeypatch: pytest.MonkeyPatch) -> Programs:
    """Returns what makes a script that is found before the machine's program of this name."""
    folder = tmp_path / "programs"
    folder.mkdir()
    monkeypatch.setenv("PATH", f"{folder}:/usr/bin:/bin")

    def make(name: str, script: str) -> None:
        path = folder / name
        path.write_text(f"#!/bin/sh\n{script}\n")
        path.chmod(0o755)

    return make


@pytest.fixture
def alpha(monkeypatch: pytest.MonkeyPatch, programs: Programs) -> None:
    """Lets this machine be alpha, with a watchdog and a free disk. systemd knows no unit."""
    monkeypatch.setattr(socket, "gethostname", lambda: "alpha")
    monkeypatch.setattr(Path, "is_char_device", lambda path: str(path) == "/dev/watchdog")
    monkeypatch.setattr(Path, "is_block_device", lambda path: str(path) == "/dev/vg0/sums")
    programs("lsblk", "echo 'vg0-sums  '")
    programs("systemctl", "exit 1")


@pytest.fixture
def folders(tmp_path: Path) -> tuple[Path, Path]:
    """Returns the folder of projects, which has one, and that of pairs."""
    home = tmp_path / "projects" / "sums"
    home.mkdir(parents=True)
    (home / "project.db").touch()
    return tmp_path / "projects", tmp_path / "pairs"


def run(folders: tuple[Path, Path], *words: str) -> int:
    """Runs the command."""
    return command.main([*map(str, folders), *words])


# ---- The files


def test_the_files_byte_for_byte() -> None:
    made = dict(files_of(PAIR, possible_units("sums"), HOME, "00" * 16))
    assert made == {path.name: path.read_text() for path in EXPECTED.iterdir()}


def test_a_machine_without_the_network_of_the_clients_loses_the_project() -> None:
    """Each member of the group counts for the machine that it is on. No machine may have less than none."""
    members = 3 + len(possible_units("sums"))
    assert STAY * members < BLIND < ANYWHERE


def test_the_files_are_for_root_alone(
    folders: tuple[Path, Path], alpha: None, capsys: pytest.CaptureFixture[str]
) -> None:
    assert run(folders, *WORDS) == 0
    written = folders[1] / "sums"
    names = {path.name: path.stat().st_mode & 0o777 for path in written.iterdir()}
    options = names.pop("options")
    assert options == 0o644 and names == dict.fromkeys([path.name for path in EXPECTED.iterdir()], 0o600)
    secrets = re.findall('shared-secret "([0-9a-f]{32})"', (written / "bsched.res").read_text())
    assert len(secrets) == 1
    assert f"directory={folders[0]}/sums " in (written / "cluster.crm").read_text()
    out = capsys.readouterr()
    assert out.err == "" and f"cd {written}\n" in out.out and secrets[0] not in out.out
    assert command.written_pair(written) == PAIR


def test_the_units_are_those_that_the_project_uses(programs: Programs) -> None:
    programs("systemctl", 'case "$1 $3" in "is-enabled bsched-copy@sums.timer") exit 0;; esac; exit 1')
    assert [unit.name for unit in used_units("sums")] == ["scheduler", "tick", "copy"]
    # after the set-up no unit is enabled, and the cluster has started them
    programs("systemctl", 'case "$1 $3" in "is-active bsched-bridge@sums.service") exit 0;; esac; exit 1')
    assert [unit.name for unit in used_units("sums")] == ["scheduler", "bridge", "tick"]


def test_each_unit_of_the_packages_can_be_in_the_cluster() -> None:
    """A timer or service of the packages that the cluster does not know would never start."""
    debian = Path(__file__).resolve().parents[2] / "debian"
    found = {path.name for path in debian.glob("bsched*@.*")}
    timers = {name.split("@.")[1] for name in found if name.endswith(".timer")}
    timed = {f"{name.removesuffix('.timer')}.service" for name in timers}
    services = {name.split("@.")[1] for name in found if name.endswith(".service")} - timed
    services = {
        "bsched.service" if name == "service" else name
        for name in services | {"service"} - {"bsched@.service"}
    }
    known = {unit.unit.replace("@sums", "") for unit in possible_units("sums")}
    assert known == timers | services


# ---- The commands


def test_the_commands_are_those_of_a_shell() -> None:
    printed = steps(PAIR, possible_units("sums"), HOME, Path("/var/lib/bsched-pair/sums"))
    commands = "\n".join(line[2:] for line in printed.splitlines() if line.startswith("  "))
    done = subprocess.run(["bash", "-n"], input=commands, capture_output=True, text=True, timeout=600)
    assert (done.returncode, done.stderr) == (0, "")
    assert max(len(line) for line in printed.splitlines() if not line.startswith("  ")) <= 100
    for unit in possible_units("sums"):
        assert f" {unit.unit} " in printed
    for file in (*INSTALLED, "timed.conf"):
        assert f" {file} " in printed or f"/{file} " in printed
    for package in PACKAGES:
        assert package in printed
    # a cluster that Debian started with its own settings ends before it gets these
    stop = printed.index("systemctl disable --now pacemaker corosync")
    assert stop < printed.index(" /etc/corosync/corosync.conf\n")
    # writes may ask the cluster only once it runs
    assert printed.index("dont-care") < printed.index("systemctl start corosync") < printed.index("adjust")


# ---- What is refused


@pytest.mark.parametrize(
    "changes, text",
    [
        ({"vote": None}, "no third machine has a vote"),
        ({"machines": (ALPHA, dataclasses.replace(BETA, name="alpha"))}, "two machines have the same name"),
        ({"vote": Vote("beta", IPv4Address("10.77.0.3"))}, "two machines have the same name"),
        ({"machines": (ALPHA, dataclasses.replace(BETA, name="Beta"))}, "Beta is no name of a machine"),
        ({"vote": Vote("gamma", IPv4Address("10.77.0.1"))}, "an address is named twice"),
        (
            {"address": IPv4Interface("10.78.0.100/24")},
            "10.77.0.1 of alpha is not in the network 10.78.0.0/24",
        ),
        ({"address": IPv4Interface("10.77.0.100/16")}, "10.77.1.1 of alpha is in the network of the clients"),
        ({"disk": Path("/home/disk")}, "/home/disk is no device in /dev"),
        ({"disk": Path("/dev/../home/disk")}, "/dev/../home/disk is no device in /dev"),
        ({"disk": Path("/dev/a;reboot")}, "/dev/a;reboot is no device in /dev"),
        ({"project": "a b"}, "a b is no name of a project"),
        ({"times": Times.of(10, 11)}, "the vote is waited for 11 seconds, longer than the watchdog's 10"),
        ({"times": Times.of(2, 1)}, "5 to 60 are possible"),
        ({"times": Times.of(10, 0)}, "1 is the least"),
        ({"times": Times(fence=19)}, "at least 20 are safe"),
        ({"times": Times(stonith=30)}, "a fencing may take 30 seconds, and needs more than 30"),
    ],
)
def test_a_pair_that_is_not_safe(changes: dict[str, object], text: str) -> None:
    faults = list(dataclasses.replace(PAIR, **changes).faults())
    assert faults and text in faults[0] and "\n" not in "".join(faults)


def test_a_pair_that_is_safe() -> None:
    assert not list(PAIR.faults())
    assert Times.of(10, 9) == Times()


@given(st.integers(5, 60), st.integers(1, 60))
def test_times_by_that_of_the_watchdog_fit_each_other(watchdog: int, sync: int) -> None:
    assert bool(list(Times.of(watchdog, sync).faults())) == (sync > watchdog)


@pytest.mark.parametrize(
    "printed, status, text",
    [
        ("vg0-sums  ", 0, None),
        ("vg0-sums ext4 ", 0, "it has ext4"),
        ("vg0-sums ext4 /srv", 0, "it has ext4 at /srv"),
        ("sda  \nsda1 ext4 /", 0, "sda1 is on it"),
        ("vg0-sums drbd \ndrbd0 ext4 /var/lib/bsched/sums", 0, "drbd0 is on it"),
        ("", 1, "lsblk does not say what uses it: "),
    ],
)
def test_what_uses_a_disk(programs: Programs, printed: str, status: int, text: str | None) -> None:
    programs("lsblk", f"printf '%s\\n' '{printed}'; exit {status}")
    assert machine.use_of(Path("/dev/vg0/sums")) == text


@pytest.mark.parametrize(
    "words, text",
    [
        (["--watchdog", "/dev/watchdog1"], "/dev/watchdog1 is no watchdog"),
        (["--disk", "/dev/sdz"], "/dev/sdz is no disk"),
        (["--watchdog-seconds", "8"], "the vote is waited for 9 seconds, longer than the watchdog's 8"),
        (["--machine", "delta=10.77.0.4,10.77.1.4"], "a pair has two machines"),
    ],
)
def test_what_this_machine_lacks(
    folders: tuple[Path, Path], alpha: None, words: list[str], text: str, capsys: pytest.CaptureFixture[str]
) -> None:
    assert run(folders, *WORDS, *words) == 1
    out = capsys.readouterr()
    assert out.out == "" and text in out.err and out.err.count("\n") == 1
    assert not folders[1].exists(), "nothing is written"


def test_a_disk_that_is_in_use_another_machine_and_no_project(
    folders: tuple[Path, Path], alpha: None, programs: Programs, capsys: pytest.CaptureFixture[str]
) -> None:
    programs("lsblk", "echo 'vg0-sums ext4 /srv'")
    assert run(folders, *WORDS) == 1
    assert capsys.readouterr().err == "bsched-project: /dev/vg0/sums is in use: it has ext4 at /srv\n"
    assert run(folders, *[word.replace("alpha=", "delta=") for word in WORDS]) == 1
    assert "this machine is alpha, and the pair is delta and beta" in capsys.readouterr().err
    assert run(folders, "others", *WORDS[1:]) == 1
    assert "there is no project" in capsys.readouterr().err


@pytest.mark.parametrize(
    "words",
    [
        [],
        ["sums"],
        ["../sums", *WORDS[1:]],
        [*WORDS, "--machine", "delta=10.77.0.4"],
        [*WORDS, "--machine", "delta=10.77.0.4,link"],
        [*WORDS, "--vote", "gamma"],
        [*WORDS, "--address", "10.77.0.100"],
        [*WORDS, "--address", "here/24"],
        ["--check", "../sums"],
        ["--check", "sums", "--state", "sums"],
    ],
)
def test_a_bad_command_line(words: list[str], capsys: pytest.CaptureFixture[str]) -> None:
    with pytest.raises(SystemExit) as ended:
        command.main(["/nowhere", "/nowhere", *words])
    assert ended.value.code == 64
    assert re.fullmatch("bsched-project: .+: see bsched-project pair --help\n", capsys.readouterr().err)


# ---- Two machines


def state(name: str = "alpha") -> State:
    """Returns the state of a machine."""
    return State(name, {"sbd": "1.5.2-1", "nginx": ""}, "100:101", {"/etc/a": "f" * 64, "/etc/b": ""})


def test_machines_that_are_alike() -> None:
    assert not list(differences(state("alpha"), state("beta")))
    assert State.read(state().text()) == state()


@pytest.mark.parametrize(
    "changes, text",
    [
        ({"machine": "alpha"}, "both states are of alpha: take that of the other machine"),
        ({"user": ""}, "the user bsched is 100:101 on alpha, and missing on beta"),
        ({"user": "102:103"}, "the user bsched is 100:101 on alpha, and 102:103 on beta"),
        ({"versions": {"sbd": "1.6", "nginx": ""}}, "sbd: 1.5.2-1 on alpha, 1.6 on beta"),
        ({"versions": {"sbd": "1.5.2-1", "nginx": "1"}}, "nginx: missing on alpha, 1 on beta"),
        ({"files": {"/etc/a": "e" * 64}}, "/etc/a is another file on beta"),
        ({"files": {}}, "/etc/a is missing on beta"),
        ({"files": {"/etc/a": "f" * 64, "/etc/b": "f" * 64}}, "/etc/b is missing on alpha"),
        ({"files": {"/etc/a": "f" * 64, "/etc/c": "f" * 64}}, "/etc/c is missing on alpha"),
    ],
)
def test_in_what_machines_differ(changes: dict[str, object], text: str) -> None:
    other = dataclasses.replace(state("beta"), **changes)
    found = list(differences(state(), other))
    assert len(found) == 1 and found[0].startswith(text)


JSON = st.recursive(
    st.none() | st.booleans() | st.floats() | st.text(),
    lambda parts: st.lists(parts, max_size=3)
    | st.dictionaries(st.sampled_from(["machine", "user", "versions", "files", "a"]), parts, max_size=4),
)


@given(st.text() | JSON.map(json.dumps))
def test_a_state_that_is_none(text: str) -> None:
    """What another machine prints may be anything. It is read, or refused with a line."""
    try:
        State.read(text)
    except Fault as fault:
        assert "\n" not in str(fault)


def test_a_state_that_is_too_large(tmp_path: Path) -> None:
    path = tmp_path / "state"
    path.write_text(" " * (check.MOST_STATE_BYTES + 1))
    with pytest.raises(Fault, match="too large"):
        check.read_other(path)


def test_the_files_outside_of_the_folder(tmp_path: Path) -> None:
    site = tmp_path / "etc/nginx/conf.d/bsched-sums.conf"
    dropped = tmp_path / "etc/systemd/system/bsched-results@sums.service.d/more.conf"
    others = tmp_path / "etc/systemd/system/bsched-results@others.service.d/more.conf"
    for path in (site, dropped, others):
        path.parent.mkdir(parents=True)
        path.touch()
    site.write_text(
        "    ssl_certificate /etc/live/fullchain.pem;\n    ssl_certificate_key /etc/live/privkey.pem;\n"
    )
    found = files_outside("sums", tmp_path)
    assert {"/etc/live/fullchain.pem", "/etc/live/privkey.pem", "/etc/corosync/authkey"} < set(found)
    assert "/etc/systemd/system/bsched-results@sums.service.d/more.conf" in found
    assert not any("others" in path for path in found)


VOTES = "echo 'Expected votes:   3'; echo 'Highest expected: 3'; echo 'Total votes:      {total}'"


@pytest.fixture
def set_up(
    tmp_path: Path, alpha: None, programs: Programs, monkeypatch: pytest.MonkeyPatch
) -> tuple[Path, Path]:
    """Sets up a machine in a folder, and returns the folder of the pair's files and that of the machine."""
    written, root = tmp_path / "written", tmp_path / "root"
    written.mkdir()
    for name, text in files_of(PAIR, possible_units("sums"), HOME, "00" * 16):
        (written / name).write_text(text)
        if name in INSTALLED:
            place = root / str(INSTALLED[name]).lstrip("/")
            place.parent.mkdir(parents=True, exist_ok=True)
            place.write_text(text)
    (root / str(KEY).lstrip("/")).write_text("key")
    programs("dpkg-query", "echo 'ii |1.0-1'")
    programs("corosync-quorumtool", VOTES.format(total=3))
    programs("crm_attribute", 'case "$4" in stonith-timeout) echo 60s;; *) echo 20;; esac')
    enabled = "|".join(["sbd", *CLUSTER])
    programs(
        "systemctl", f'case "$1 $3" in "is-enabled "*) case "$3" in {enabled}) exit 0;; esac;; esac; exit 1'
    )
    monkeypatch.setattr(check, "numbers_of", lambda user: "100:101")
    return written, root


def test_a_machine_that_is_set_up(set_up: tuple[Path, Path]) -> None:
    written, root = set_up
    assert list(faults_of_set_up(PAIR, written, root)) == []
    assert installed_times(root) == Times()


@pytest.mark.parametrize(
    "name, text, fault",
    [
        ("bsched.res", "", "/etc/drbd.d/bsched.res is not the file"),
        ("authkey", None, "there is no /etc/corosync/authkey"),
        ("sbd", "SBD_WATCHDOG_TIMEOUT=5\n", "/etc/default/sbd is not the file"),
        ("sbd", "", "/etc/default/sbd does not say SBD_WATCHDOG_TIMEOUT"),
    ],
)
def test_a_file_that_is_missing_or_another(
    set_up: tuple[Path, Path], name: str, text: str | None, fault: str
) -> None:
    written, root = set_up
    place = root / str({**INSTALLED, "authkey": KEY}[name]).lstrip("/")
    place.unlink() if text is None else place.write_text(text)
    assert any(one.startswith(fault) for one in faults_of_set_up(PAIR, written, root))


def test_times_of_a_machine_that_do_not_fit(set_up: tuple[Path, Path], programs: Programs) -> None:
    written, root = set_up
    (root / "etc/default/sbd").write_text("SBD_WATCHDOG_TIMEOUT=5\n")
    assert any("longer than the watchdog's 5" in one for one in faults_of_set_up(PAIR, written, root))
    programs("crm_attribute", "exit 1")
    found = list(faults_of_set_up(PAIR, written, root))
    assert "the cluster does not say stonith-watchdog-timeout: `crm_mon -1` says whether it runs" in found


def test_units_that_start_outside_of_the_cluster(set_up: tuple[Path, Path], programs: Programs) -> None:
    written, root = set_up
    programs("systemctl", '[ "$1 $3" = "is-enabled bsched@sums.service" ]')
    found = list(faults_of_set_up(PAIR, written, root))
    assert any(one.startswith("bsched@sums.service starts at a boot") for one in found)
    assert sum("does not start at a boot" in one for one in found) == 1 + len(CLUSTER)


@pytest.mark.parametrize(
    "script, fault",
    [
        (f"{VOTES.format(total=2)}; exit 0", "2 of 3 votes are there, and the project needs two"),
        (f"{VOTES.format(total=1)}; exit 2", "1 of 3 votes are there, and the project needs two"),
        ("exit 1", "Corosync does not say which votes are there"),
    ],
)
def test_votes_that_are_missing(
    set_up: tuple[Path, Path], programs: Programs, script: str, fault: str
) -> None:
    programs("corosync-quorumtool", script)
    (found,) = faults_of_set_up(PAIR, *set_up)
    assert found.startswith(fault)


def test_packages_that_are_missing(set_up: tuple[Path, Path], programs: Programs) -> None:
    written, root = set_up
    programs("dpkg-query", "echo 'rc |1.0-1'")
    found = list(faults_of_set_up(PAIR, written, root))
    assert found == [f"the package {name} is not installed" for name in PACKAGES]


def test_check_and_state(
    folders: tuple[Path, Path], alpha: None, tmp_path: Path, capsys: pytest.CaptureFixture[str]
) -> None:
    assert run(folders, "--check", "sums") == 1
    assert "has no files of a pair" in capsys.readouterr().err
    assert run(folders, *WORDS) == 0
    capsys.readouterr()
    assert run(folders, "--state", "sums") == 0
    printed = capsys.readouterr().out
    assert State.read(printed).machine == "alpha"
    (tmp_path / "state").write_text(printed)
    assert run(folders, "--check", "sums", str(tmp_path / "state")) == 1
    assert "both states are of alpha" in capsys.readouterr().err


# ---- bsched-project


def test_bsched_project_leads_to_the_pair(tmp_path: Path) -> None:
    projects = Projects(tmp_path)
    assert projects.make("sums").returncode == 0
    done = projects.make("pair", *WORDS)
    assert done.returncode == 1 and done.stdout == ""
    assert all(line.startswith("bsched-project: ") for line in done.stderr.splitlines())
    assert "/dev/vg0/sums is no disk\n" in done.stderr
    assert projects.make("pair").returncode == 64
    assert projects.make("pair", "sums").returncode == 64
    shown = projects.make("pair", "--help")
    assert shown.returncode == 0 and "--vote" in shown.stdout and "--check" in shown.stdout
    refused = projects.make("pair", *WORDS, stubs="id() { echo 1000; }\n")
    assert refused.returncode == 1 and "only root" in refused.stderr


@pytest.mark.parametrize(
    "words",
    [("nginx", "sums"), ("--complete", "sums"), ("--add-bridge", "sums"), ("export", "sums", "f"), ("sums",)],
)
def test_an_order_on_the_machine_without_the_project(tmp_path: Path, words: tuple[str, ...]) -> None:
    projects = Projects(tmp_path)
    (projects.projects / "sums").mkdir()
    written = tmp_path / "projects-pair" / "sums"
    written.mkdir(parents=True)
    (written / "options").write_text("".join(f"{word}\n" for word in WORDS))
    done = projects.make(*words, stubs="hostname() { echo alpha; }\n")
    line = "bsched-project: sums is not on this machine: run this on beta, or see `crm_mon -1`\n"
    assert (done.returncode, done.stdout, done.stderr) == (1, "", line)
    done = projects.make(*words, stubs="hostname() { echo gamma; }\n")
    assert "run this on alpha or beta, or see" in done.stderr


def test_a_unit_is_a_timer_or_a_service() -> None:
    assert Unit("tick", "bsched-tick@sums.timer").is_timer
    assert not Unit("scheduler", "bsched@sums.service").is_timer
