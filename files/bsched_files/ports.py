"""The ports of a project of bsched-project.

The file `environment` of its folder has them for the units of systemd: PORT is that of the scheduler, and
BRIDGE_PORT that of the bridge. The settings of the bridge have the same ports in `scheduler` and `listen`,
for a bridge that runs without the units. `set_ports` writes both files.
"""
import re
from dataclasses import dataclass
from pathlib import Path

import tomlkit
from tomlkit.exceptions import TOMLKitError

from .atomic import rewrite_file
from .faults import Fault
from .project_settings import file_of

FILE_NAME = "environment"
SCHEDULER, BRIDGE = "PORT", "BRIDGE_PORT"
HOST = "127.0.0.1"
MOST_PORT = 65_535
PORT = re.compile("[1-9][0-9]{0,4}")


@dataclass(frozen=True, slots=True)
class Ports:
    """The ports of a project."""

    scheduler: int
    bridge: int


def is_port(text: str) -> bool:
    """Returns whether a text is the number of a port."""
    return PORT.fullmatch(text) is not None and int(text) <= MOST_PORT


def read_port(folder: Path, name: str = SCHEDULER) -> int:
    """Returns a port of a project. Of two lines the later one counts, as for systemd."""
    path = folder / FILE_NAME
    port = None
    for line in _text_of(path).splitlines():
        key, _, value = line.partition("=")
        if key.strip() == name and is_port(value.strip()):
            port = int(value)
    if port is None:
        raise Fault(f"{path}: it has no line {name}=NUMBER")
    return port


def read_ports(folder: Path) -> Ports:
    """Returns the ports of a project."""
    return Ports(read_port(folder, SCHEDULER), read_port(folder, BRIDGE))


def set_ports(folder: Path, ports: Ports) -> None:
    """Gives a project other ports. An address on another machine stays in the settings of the bridge."""
    numbers = {SCHEDULER: ports.scheduler, BRIDGE: ports.bridge}
    texts = {folder / FILE_NAME: environment_with(_text_of(folder / FILE_NAME), numbers)}
    bridge = file_of(folder)
    if bridge.exists():
        texts[bridge] = settings_with(bridge, _text_of(bridge), ports)
    for path, text in texts.items():
        rewrite_file(path, text.encode())


def environment_with(text: str, numbers: dict[str, int]) -> str:
    """Returns the text of an environment with other ports. All other lines stay."""
    lines = [line for line in text.splitlines() if line.partition("=")[0].strip() not in numbers]
    return "".join(f"{line}\n" for line in (*(f"{name}={port}" for name, port in numbers.items()), *lines))


def settings_with(path: Path, text: str, ports: Ports) -> str:
    """Returns the text of the settings of a bridge with other ports. Comments and all other lines stay."""
    try:
        document = tomlkit.parse(text)
    except TOMLKitError as error:
        raise Fault(f"{path}: it is not TOML: {error}") from None
    for name, port in (("scheduler", ports.scheduler), ("listen", ports.bridge)):
        host, _, _ = str(document.get(name, "")).rpartition(":")
        if host == HOST:
            document[name] = f"{HOST}:{port}"
    return tomlkit.dumps(document)


def _text_of(path: Path) -> str:
    """Returns the text of a file."""
    try:
        return path.read_text(encoding="utf-8")
    except OSError as error:
        raise Fault(f"{path}: {error.strerror}") from None
    except UnicodeDecodeError:
        raise Fault(f"{path}: it is no text in UTF-8") from None
