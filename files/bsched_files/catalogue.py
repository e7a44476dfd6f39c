"""The catalogue of a project's bridge, `catalogue.toml` (`bridge/README.md`, "The catalogue"): its rules, its
defaults, its entries, and how an entry is added.

The bridge also compares the catalogue with the files on the disk and with signatures. A new entry is written
at the end of the file, so the operator's own lines and comments stay.
"""
import re
import tomllib
from collections.abc import Iterable
from dataclasses import dataclass
from pathlib import Path
from typing import Any

import tomlkit

from .faults import Fault
from .texts import NO_XML
from .toml_entries import Entry, OperatorFile

FILE_NAME = re.compile(r"[A-Za-z0-9_][A-Za-z0-9_.+-]{0,127}")
FILE_NAME_RULE = "is not a file name: letters, digits, '_', '.', '+' and '-', at most 128"
# names of output files: no file that clients download has such a name, since the client has one file for each
UPLOAD_NAME = re.compile(r".*_[0-9]+_[0-9]+")
# a placeholder for the workunit's name, in what an application says for all its workunits
WORKUNIT = "{workunit}"
MOST_LINE = 4096  # bytes of a command line
FAULTY_LINE = f"has more than one line, more than {MOST_LINE} bytes, or a control character"
MOST_OUTPUTS = 20  # output files of one result
MOST_BYTES = 10**18
MEMORY, DISK, FACTOR = 10**8, 10**9, 10  # the bounds of an application that does not say them


@dataclass(frozen=True, slots=True)
class OutputFile:
    """An output file of an application."""

    open_name: str  # under which the program writes it, in its folder
    max_nbytes: int  # a result with a larger file is an error
    is_optional: bool  # the program may leave it out
    is_compared: bool  # it is part of the output that bsched compares


@dataclass(frozen=True, slots=True)
class InputFile:
    """The name of an input file, and the name under which the program opens it."""

    name: str
    open_name: str


@dataclass(frozen=True, slots=True)
class Bounds:
    """What a job of an application may use."""

    memory: int  # bytes
    disk: int  # bytes; the client ends a job that uses more
    factor: int  # the client ends a job that takes this many times its estimate


@dataclass(frozen=True, slots=True)
class ListedFile:
    """A file of a version, as the catalogue lists it."""

    name: str
    open_name: str | None  # the name under which the program opens it, if it is another one
    is_main_program: bool  # the client runs it
    is_executable: bool  # the client lets it run: the main program, and programs that the main program starts


@dataclass(frozen=True, slots=True)
class ListedVersion:
    """A version of an application for a platform, as the catalogue lists it."""

    app: str
    platform: str
    number: int
    files: tuple[ListedFile, ...]


# ---- The rules of members


def is_faulty_line(text: str) -> bool:
    """Returns whether a text can't be a command line."""
    if NO_XML.search(text) or "\n" in text or "\r" in text:
        return True
    return len(text.encode(errors="surrogatepass")) > MOST_LINE


def file_name(entry: Entry, member: str, with_workunit: bool = False) -> str:
    """Returns a file name from a member. A file name has no slash, and does not begin with a dot."""
    name = entry.text(member)
    plain = name.replace(WORKUNIT, "w") if with_workunit else name
    if not FILE_NAME.fullmatch(plain):
        entry.fault(f"{member} {FILE_NAME_RULE}", member)
    return name


def open_name(entry: Entry) -> str | None:
    """Returns the name under which a program opens a file, if the entry says it."""
    return file_name(entry, "open_name") if entry.has("open_name") else None


def read_bounds(entry: Entry) -> Bounds:
    """Reads what a job of an application may use."""
    return Bounds(
        memory=entry.whole("rsc_memory_bound", 0, MOST_BYTES, MEMORY),
        disk=entry.whole("rsc_disk_bound", 1, MOST_BYTES, DISK),
        factor=entry.whole("fpops_bound_factor", 1, 10**6, FACTOR),
    )


def read_input_file(entry: Entry, of_app: bool) -> InputFile:
    """Reads an input file of an application, or of one workunit."""
    name = file_name(entry, "name", of_app)
    return InputFile(name, open_name(entry) or name)


def read_output_files(entry: Entry) -> tuple[OutputFile, ...]:
    """Reads the output files of an application."""
    files: list[OutputFile] = []
    for item in entry.entries("output_files", []):
        name = file_name(item, "open_name")
        if name in (file.open_name for file in files):
            item.fault(f"two output files have the open_name {name}")
        max_nbytes = item.whole("max_nbytes", 1, 10**12)
        is_compared = item.flag("compare", True)
        files.append(OutputFile(name, max_nbytes, item.flag("optional"), is_compared))
        item.end()
    if len(files) > MOST_OUTPUTS:
        entry.fault(f"output_files has more than {MOST_OUTPUTS} files", "output_files")
    if files and not any(file.is_compared for file in files):
        entry.fault("output_files: no file is compared, so all results would agree", "output_files")
    return tuple(files)


def read_listed_file(entry: Entry) -> ListedFile:
    """Reads a file of a version."""
    is_main = entry.flag("main_program")
    is_executable = entry.flag("executable") or is_main
    return ListedFile(file_name(entry, "name"), open_name(entry), is_main, is_executable)


def version_number(entry: Entry) -> int:
    """Reads the number of a version."""
    return entry.whole("version_num", 1, 10**6)


def code_sign_key(file: Entry) -> Path:
    """Reads the path of the public key for code signing."""
    return file.path.parent / file.text("code_sign_key")


def line_folder(entry: Entry) -> Path | None:
    """Reads the folder that has, for each workunit, a file with the end of its command line."""
    return entry.path.parent / entry.text("command_lines") if entry.has("command_lines") else None


# ---- The entries, for those who need no more than the catalogue


class App:
    """An application in the catalogue."""

    def __init__(self, entry: Entry) -> None:
        self.name, self.members, self._entry = entry.word("name"), entry.members, entry

    @property
    def bounds(self) -> Bounds:
        """What a job may use."""
        return read_bounds(self._entry)

    @property
    def inputs(self) -> list[str]:
        """The names of the input files that differ from workunit to workunit."""
        files = (read_input_file(item, of_app=True) for item in self._entry.entries("input_files", []))
        return [file.name for file in files if WORKUNIT in file.name]

    @property
    def output_files(self) -> tuple[OutputFile, ...]:
        """The output files that its programs write."""
        return read_output_files(self._entry)

    @property
    def line_folder(self) -> Path | None:
        """The folder of the command lines of its workunits."""
        return line_folder(self._entry)


class CatalogueFile:
    """The catalogue of a project."""

    def __init__(self, path: Path) -> None:
        self.path, self._file = path, OperatorFile(path)

    @property
    def files(self) -> Path:
        """The folder of the files that clients download."""
        return self.path.parent / self._file.text("files")

    @property
    def public_key(self) -> Path:
        """The public key for code signing."""
        return code_sign_key(self._file)

    def apps(self) -> list[App]:
        """Returns the applications."""
        return [App(entry) for entry in self._file.tables("app")]

    def app(self, name: str) -> App | None:
        """Returns the application with a name."""
        return next((app for app in self.apps() if app.name == name), None)

    def versions(self, app: str) -> list[ListedVersion]:
        """Returns the versions of an application."""
        return [
            version for version in map(_listed_version, self._file.tables("version")) if version.app == app
        ]

    def plan_classes(self) -> list[str]:
        """Returns the names of the plan classes."""
        return [entry.word("name") for entry in self._file.tables("plan_class")]

    def version_bytes(self, app: str) -> int:
        """Returns the bytes of the largest version of an application, as far as its files are there."""
        sizes = [0]
        for version in self.versions(app):
            paths = (self.files / file.name for file in version.files)
            sizes.append(sum(path.stat().st_size for path in paths if path.is_file()))
        return max(sizes)

    def text_with(self, entries: Iterable[tuple[str, dict[str, Any]]]) -> str:
        """Returns the text of the catalogue with further entries at its end."""
        text = self.path.read_text(encoding="utf-8")
        for kind, members in entries:
            text += f"{'' if text.endswith(chr(10)) else chr(10)}\n[[{kind}]]\n{entry_text(members)}"
        try:
            tomllib.loads(text)
        except tomllib.TOMLDecodeError as error:
            raise Fault(f"{self.path}: an entry can't be added at its end: {error}") from None
        return text


def _listed_version(entry: Entry) -> ListedVersion:
    """Reads a version."""
    files = tuple(map(read_listed_file, entry.entries("files")))
    return ListedVersion(entry.word("app"), entry.word("platform"), version_number(entry), files)


def entry_text(members: dict[str, Any]) -> str:
    """Returns an entry as TOML. Tables in it are on one line each."""
    document = tomlkit.document()
    for key, value in members.items():
        if isinstance(value, list):
            array = tomlkit.array()
            for one in value:
                table = tomlkit.inline_table()
                table.update(one)
                array.append(table)
            array.multiline(len(value) > 1)
            document.add(key, array)
        else:
            document.add(key, value)
    return tomlkit.dumps(document)
