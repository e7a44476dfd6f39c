"""The unit of systemd by which an installed bridge runs."""
import re
from pathlib import Path

import pytest

from bsched_bridge.application import UPLOADS_WAITING
from bsched_bridge.exchange.large_calls import MOST_AT_ONCE

DEBIAN = Path(__file__).resolve().parents[2] / "debian"
UNIT = DEBIAN / "bsched-tools@.bsched-bridge.service"


def test_a_worker_may_load_as_long_as_the_check() -> None:
    """gunicorn kills a worker that loads longer than its time limit, by default 30 seconds. systemd gives the
    check of the same files TimeoutStartSec.
    """
    unit = UNIT.read_text()
    limits = re.findall(r"^ExecStart=.* --timeout (\d+) .*$|^TimeoutStartSec=(\d+)$", unit, re.MULTILINE)
    assert limits == [("600", ""), ("", "600")]


def test_gunicorn_has_threads_for_what_waits() -> None:
    """Without them, uploads that wait and large calls that come would keep pages waiting."""
    (threads,) = re.findall(r"^ExecStart=.* --threads (\d+) .*$", UNIT.read_text(), re.MULTILINE)
    assert int(threads) == 8 + UPLOADS_WAITING + MOST_AT_ONCE  # 8 is the default of `threads`


UNITS = sorted(path.name for path in DEBIAN.glob("*@*.service"))
AS_ROOT = (
    "bsched-tools@.bsched-copy.service"  # it stops the scheduler, and gives the copies to the user bsched
)
OWN = "/var/lib/bsched/%i"


def paths_of(name: str) -> set[tuple[str, str]]:
    """Returns the settings of a unit that name paths of projects or of copies."""
    text = (DEBIAN / name).read_text()
    return set(re.findall(r"^(\w+)=-?(/var/(?:lib|backups)/bsched(?:/\S*|:ro)?)$", text, re.MULTILINE))


@pytest.mark.parametrize("name", [name for name in UNITS if name != AS_ROOT])
def test_a_unit_sees_no_other_project(name: str) -> None:
    """All projects belong to one user, and have their operators' keys in files that this user can read. So
    each unit sees an empty folder of projects with its own one in it, and of the copies its own ones or none.
    """
    paths = paths_of(name)
    assert ("TemporaryFileSystem", "/var/lib/bsched:ro") in paths
    assert {("BindPaths", OWN), ("BindReadOnlyPaths", OWN)} & paths
    hidden = ("InaccessiblePaths", "/var/backups/bsched") in paths
    own_alone = {
        ("TemporaryFileSystem", "/var/backups/bsched:ro"),
        ("BindReadOnlyPaths", "/var/backups/bsched/%i"),
    }
    assert hidden or own_alone <= paths
    others = [path for _, path in paths if not path.startswith((OWN, "/var/backups/bsched/%i"))]
    assert set(others) <= {"/var/lib/bsched:ro", "/var/backups/bsched:ro", "/var/backups/bsched"}


@pytest.mark.parametrize("name", ["bridge", "sweep"])
def test_what_strangers_reach_sees_no_tables(name: str) -> None:
    """Of its own project it can write the folder of the bridge, and read neither tables nor settings."""
    paths = paths_of(f"bsched-tools@.bsched-{name}.service")
    written = {path for kind, path in paths if kind in ("BindPaths", "ReadWritePaths")}
    assert written == {f"{OWN}/bridge"}
    unreadable = {path for kind, path in paths if kind == "InaccessiblePaths"}
    assert {f"{OWN}/{file}" for file in ("project.db", "project.db-wal", "settings.toml")} <= unreadable


def test_the_scheduler_may_make_a_log() -> None:
    """A new log gets the owner of the database, by fchown: @privileged has it, so it is allowed again."""
    unit = (DEBIAN / "bsched@.service").read_text()
    filters = re.findall(r"^SystemCallFilter=(.*)$", unit, re.MULTILINE)
    assert filters.index("fchown") > filters.index("~@privileged @resources")


def test_the_bridge_may_run_digest_programs() -> None:
    """bubblewrap makes namespaces, mounts in them, and sets their loopback up. That of Debian 13 opens files
    by openat2, which RestrictSUIDSGID takes away. If memory runs out, the kernel ends a program, and the unit
    goes on. A program that fails its check stops no start.
    """
    unit = UNIT.read_text()
    assert "\nRestrictSUIDSGID=" not in unit
    for line in (
        "RestrictNamespaces=user mnt pid net ipc uts cgroup",
        "RestrictAddressFamilies=AF_INET AF_UNIX AF_NETLINK",
        "SystemCallFilter=@system-service @mount",
        "OOMPolicy=continue",
        "ExecStartPre=/usr/bin/bsched-bridge --config bridge.toml --check --without-digests",
    ):
        assert f"\n{line}\n" in unit
