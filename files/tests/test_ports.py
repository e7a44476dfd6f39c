"""Tests the ports of a project: each file that has them is read, and all of them are written."""
import os
import tomllib
from pathlib import Path

import pytest

from bsched_files.faults import Fault
from bsched_files.ports import BRIDGE, Ports, is_port, read_port, read_ports, set_ports
from bsched_files.project_settings import file_of

SETTINGS = """\
# the bridge
name = "Sums"  # 8080
  listen  = '127.0.0.1:8081'   # where it listens, and not at 127.0.0.1:8090
scheduler = "{host}:8080"     # where `bsched serve` listens

[accounts]  # listen = "127.0.0.1:1"
most_a_day = 8081
"""


def project(folder: Path, host: str = "127.0.0.1") -> Path:
    """Makes the folder of a project."""
    (folder / "bridge").mkdir()
    (folder / "environment").write_text('PORT=8080\nBRIDGE_PORT=8081\nSWEEP="--tables /x"\n')
    file_of(folder).write_text(SETTINGS.format(host=host))
    return folder


def test_the_ports_are_set_everywhere(tmp_path: Path) -> None:
    folder = project(tmp_path)
    set_ports(folder, Ports(9001, 9002))
    assert read_ports(folder) == Ports(9001, 9002)
    text = file_of(folder).read_text()
    read = tomllib.loads(text)
    assert (read["scheduler"], read["listen"]) == ("127.0.0.1:9001", "127.0.0.1:9002")
    assert 'SWEEP="--tables /x"\n' in (folder / "environment").read_text()
    # comments and all else stay
    lines = text.splitlines()
    former = SETTINGS.splitlines()
    assert [line.partition("#")[2] for line in lines] == [line.partition("#")[2] for line in former]
    assert [lines[at] for at in (0, 1, 4, 5, 6)] == [former[at] for at in (0, 1, 4, 5, 6)]


def test_a_scheduler_on_another_machine_stays(tmp_path: Path) -> None:
    folder = project(tmp_path, "10.0.0.5")
    set_ports(folder, Ports(9001, 9002))
    assert tomllib.loads(file_of(folder).read_text())["scheduler"] == "10.0.0.5:8080"


def test_a_project_without_a_bridge(tmp_path: Path) -> None:
    (tmp_path / "environment").write_text("PORT=1\nBRIDGE_PORT=2\n")
    set_ports(tmp_path, Ports(65_535, 3))
    assert read_ports(tmp_path) == Ports(65_535, 3) and not file_of(tmp_path).exists()


def test_the_files_keep_their_modes_and_owners(tmp_path: Path) -> None:
    folder = project(tmp_path)
    for path in (folder / "environment", file_of(folder)):
        path.chmod(0o640)
        if os.geteuid() == 0:
            os.chown(path, 1, 2)
    set_ports(folder, Ports(9001, 9002))
    owner = (1, 2) if os.geteuid() == 0 else (os.geteuid(), os.getegid())
    for path in (folder / "environment", file_of(folder)):
        status = path.stat()
        assert (status.st_mode & 0o777, status.st_uid, status.st_gid) == (0o640, *owner)


@pytest.mark.parametrize(
    "text, port",
    [("BRIDGE_PORT=5\n", 5), (" BRIDGE_PORT = 7 \n", 7), ("BRIDGE_PORT=5\nBRIDGE_PORT=6\n", 6)],
)
def test_lines_of_a_port(tmp_path: Path, text: str, port: int) -> None:
    (tmp_path / "environment").write_text(f"PORT=1\n{text}")
    assert read_port(tmp_path, BRIDGE) == port


@pytest.mark.parametrize("text", ["", "PORT=\n", "PORT=0\n", "PORT=x\n", "PORT=65536\n", "#PORT=5\n"])
def test_no_port(tmp_path: Path, text: str) -> None:
    (tmp_path / "environment").write_text(text)
    with pytest.raises(Fault, match=f"^{tmp_path}/environment: it has no line PORT=NUMBER$"):
        read_port(tmp_path)


def test_files_that_can_not_be_read(tmp_path: Path) -> None:
    with pytest.raises(Fault, match="environment: No such file"):
        read_ports(tmp_path)
    folder = project(tmp_path)
    file_of(folder).write_text("listen = \n")
    with pytest.raises(Fault, match="bridge.toml: it is not TOML"):
        set_ports(folder, Ports(9001, 9002))
    assert read_ports(folder) == Ports(8080, 8081)  # nothing was written
    (folder / "environment").write_bytes(b"\xff")
    with pytest.raises(Fault, match="it is no text in UTF-8"):
        read_ports(folder)


@pytest.mark.parametrize(
    "text, wanted", [("1", True), ("65535", True), ("65536", False), ("08", False), ("²", False)]
)
def test_numbers_of_ports(text: str, wanted: bool) -> None:
    assert is_port(text) is wanted
