"""files.toml: the files of a project, each with its number, its state, and how to reach its bsched.

A project without it has one file, number 1, which the settings of the bridge name. Each file has an operator
key of its own. With one key for all, a bridge that calls a wrong port would take another file for its own.
"""
import json
from collections.abc import Iterable, Iterator, Mapping
from dataclasses import dataclass
from enum import Enum
from pathlib import Path

from .atomic import replace_file
from .file_names import FIRST, MOST_FILES
from .ports import MOST_PORT
from .toml_entries import Entry, OperatorFile

NAME = "files.toml"
FORMAT = 1
MOST_SENT, MOST_SHARE = 1000, 1000  # jobs of a reply; the greatest share
HEAD = "# The files of the project. The tools write it, and the bridge reads it after each edit."
NONE_TAKEN: Mapping[int, str] = {}


class FileStatus(Enum):
    """What a file does."""

    OPEN = "open"  # it takes workunits, gives jobs and takes reports
    CLOSING = "closing"  # it takes no workunits
    ASLEEP = "asleep"  # a report wakes it: it has nothing open and nothing out
    CLOSED = "closed"  # it is an archive


@dataclass(frozen=True, slots=True)
class LiveFile:
    """A file that a bsched serves, or may serve again."""

    number: int
    state: FileStatus
    folder: Path  # of its tables
    port: int
    key_file: Path  # with its operator's key
    max_wus_to_send: int  # jobs of a reply
    share: int = 1  # of the new jobs, compared with the other open files
    needs_users: bool = False  # whether its workunits wait for accounts that are not in it


@dataclass(frozen=True, slots=True)
class ClosedFile:
    """A file that nobody serves any more."""

    number: int
    archive: Path  # its last copy

    state = FileStatus.CLOSED


ProjectFile = LiveFile | ClosedFile


def read_files(path: Path, taken: Mapping[int, str] = NONE_TAKEN) -> list[ProjectFile]:
    """Reads the files of a project, in the order of their numbers. Paths in it are relative to its folder.
    The taken ports are those of other projects, with their names. Raises OperatorFault.
    """
    file = OperatorFile(path)
    version = file.whole("format", 1, 10**6)
    if version > FORMAT:
        file.fault(f"a newer version wrote it (format {version}, and this one knows {FORMAT})", "format")
    entries = file.tables("file")
    file.end()
    if not entries:
        file.fault("it has no [[file]]")
    found, ports = dict[int, ProjectFile](), dict[int, int]()
    for entry in entries:
        one = _read_file(entry)
        if one.number in found:
            entry.fault(f"number {one.number} is that of an earlier file", "number")
        if isinstance(one, LiveFile):
            _check_port(entry, one, ports, taken)
        found[one.number] = one
    return [found[number] for number in sorted(found)]


def _read_file(entry: Entry) -> ProjectFile:
    """Reads one file."""
    number = entry.whole("number", FIRST, MOST_FILES)
    state = _read_state(entry)
    one: ProjectFile
    if state is FileStatus.CLOSED:
        one = ClosedFile(number, entry.existing("archive"))
    else:
        folder = entry.existing("folder")
        if not folder.is_dir():
            entry.fault(f"folder: {folder} is not a folder", "folder")
        one = LiveFile(
            number,
            state,
            folder,
            entry.whole("port", 1, MOST_PORT),
            entry.path.parent / entry.text("key_file"),
            entry.whole("max_wus_to_send", 1, MOST_SENT),
            entry.whole("share", 0, MOST_SHARE, 1),
            entry.flag("needs_users"),
        )
    entry.end()
    return one


def _read_state(entry: Entry) -> FileStatus:
    """Reads the state of a file."""
    text = entry.text("state")
    try:
        return FileStatus(text)
    except ValueError:
        entry.fault(f"state is not {', '.join(state.value for state in FileStatus)}", "state")


def _check_port(entry: Entry, one: LiveFile, ports: dict[int, int], taken: Mapping[int, str]) -> None:
    """Raises the fault of a port that another file or another project has. Else the file has it from now
    on.
    """
    if one.port in ports:
        entry.fault(f"port {one.port} is that of file {ports[one.port]}", "port")
    if one.port in taken:
        entry.fault(f"port {one.port} is that of the project {taken[one.port]}", "port")
    ports[one.port] = one.number


def write_files(path: Path, files: Iterable[ProjectFile]) -> None:
    """Writes the files of a project, whole or not at all. It is on the disk when this returns."""
    parts = [HEAD, f"format = {FORMAT}"]
    for one in sorted(files, key=lambda one: one.number):
        parts += ["", "[[file]]", *(f"{name} = {value}" for name, value in _members(path.parent, one))]
    replace_file(path, ["\n".join([*parts, ""]).encode()], mode=0o640)


def _members(folder: Path, one: ProjectFile) -> Iterator[tuple[str, str]]:
    """Yields the members of a file, as TOML writes them."""
    yield "number", str(one.number)
    yield "state", _text(one.state.value)
    if isinstance(one, ClosedFile):
        yield "archive", _path(folder, one.archive)
        return
    yield "folder", _path(folder, one.folder)
    yield "port", str(one.port)
    yield "key_file", _path(folder, one.key_file)
    yield "max_wus_to_send", str(one.max_wus_to_send)
    yield "share", str(one.share)
    yield "needs_users", "true" if one.needs_users else "false"


def _path(folder: Path, path: Path) -> str:
    """Returns a path as TOML writes it, relative to a folder that has it."""
    return _text(str(path.relative_to(folder) if path.is_relative_to(folder) else path))


def _text(text: str) -> str:
    """Returns a text as TOML writes it. The escapes of JSON are also those of TOML, but for one character."""
    return json.dumps(text, ensure_ascii=False).replace("\x7f", "\\u007f")
