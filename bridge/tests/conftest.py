"""What the tests share: a bsched that can lose answers, and a bridge before it."""
import os
import shutil
import tempfile
from collections.abc import Iterator
from pathlib import Path
from typing import Any

import pytest
from bridges import ACCOUNTS, Bridge, new_project
from messages import jobs, request
from numbering import NEW_HOSTID, rising
from tool_outputs import KEYS, write_tool_outputs
from twin import Twin

from bsched_bridge.common.code_signing import new_key

MEMORY = "/dev/shm"


@pytest.fixture
def tmp_path() -> Iterator[Path]:
    """Yields a folder for a test. It is in memory if there is room. Tests stop programs but never the power,
    so nothing needs to reach a disk.
    """
    has_room = os.access(MEMORY, os.W_OK) and shutil.disk_usage(MEMORY).free > 2**30
    with tempfile.TemporaryDirectory(prefix="bridge_", dir=MEMORY if has_room else None) as folder:
        yield Path(folder)


@pytest.fixture(autouse=True)
def numbers_from_the_first(monkeypatch: pytest.MonkeyPatch) -> None:
    """Has bridges give the first number to the first host, and the following ones to the next hosts."""
    monkeypatch.setattr(NEW_HOSTID, rising(lambda: 0))


@pytest.fixture(scope="session")
def key() -> Any:
    """Returns a code signing key."""
    return new_key()


@pytest.fixture
def project(tmp_path: Path, key: Any) -> Path:
    """Makes a folder with the files of a bridge."""
    return new_project(tmp_path, key)


@pytest.fixture
def twin() -> Iterator[Twin]:
    """A bsched: the plain twin, served over HTTP."""
    served = Twin()
    yield served
    served.close()


@pytest.fixture
def bridge(project: Path, twin: Twin, monkeypatch: pytest.MonkeyPatch) -> Iterator[Bridge]:
    """A bridge before the twin."""
    monkeypatch.setattr("bsched_bridge.scheduler.messages.PAUSE_SECONDS", 0.0)
    made = Bridge(project, twin)
    yield made
    made.file.close()


@pytest.fixture
def two(bridge: Bridge, twin: Twin) -> Bridge:
    """A bridge with two computers of Ann: A has u1_0, and B has u2_0."""
    twin.statement = None
    assert jobs(bridge.call(request(cpid="a"))) == ["u1_0"]
    assert jobs(bridge.call(request(cpid="b"))) == ["u2_0"]
    return bridge


UPLOADS = '\n[uploads]\nfolder = "uploads"\nfree_bytes = 0\nmost_bytes = 1_000_000\n'
OUTPUT_FILES = """\
output_files = [
  { open_name = "out", max_nbytes = 20_000 },
  { open_name = "log", max_nbytes = 1000, optional = true },
]
"""


@pytest.fixture
def open_bridge(project: Path, twin: Twin, monkeypatch: pytest.MonkeyPatch) -> Iterator[Bridge]:
    """A bridge that makes accounts."""
    monkeypatch.setattr("bsched_bridge.scheduler.messages.PAUSE_SECONDS", 0.0)
    with (project / "bridge.toml").open("a") as file:
        file.write(ACCOUNTS)
    made = Bridge(project, twin)
    yield made
    made.file.close()


@pytest.fixture
def file_project(project: Path) -> Path:
    """Adds output files to the application of a project."""
    catalogue = project / "catalogue.toml"
    catalogue.write_text(catalogue.read_text().replace('title = "Sums & more"\n', OUTPUT_FILES, 1))
    with (project / "bridge.toml").open("a") as file:
        file.write(UPLOADS)
    return project


@pytest.fixture
def file_bridge(file_project: Path, twin: Twin, monkeypatch: pytest.MonkeyPatch) -> Iterator[Bridge]:
    """A bridge of an application with output files."""
    monkeypatch.setattr("bsched_bridge.scheduler.messages.PAUSE_SECONDS", 0.0)
    twin.statement = None
    made = Bridge(file_project, twin)
    yield made
    made.close()


@pytest.fixture
def full_bridge(file_project: Path, twin: Twin, monkeypatch: pytest.MonkeyPatch) -> Iterator[Bridge]:
    """A bridge of a project of bsched-project, with accounts, output files, and what the tools wrote."""
    monkeypatch.setattr("bsched_files.project_settings.project_of", lambda _path: "sums")
    monkeypatch.setattr("bsched_files.timers.STAMPS", file_project / "timers")
    monkeypatch.setattr("bsched_bridge.scheduler.messages.PAUSE_SECONDS", 0.0)
    write_tool_outputs(file_project)
    settings = file_project / "bridge.toml"
    settings.write_text(KEYS + settings.read_text() + ACCOUNTS)
    twin.statement = None
    made = Bridge(file_project, twin)
    yield made
    made.close()
