"""The catalogue: what a client needs for its jobs and the profile does not carry.

For each application it has the command line and the input files of its workunits, and for each version its
files. The operator writes it in TOML. The bridge checks it when it starts, and reads it again after each edit
(`uploads/current_catalogue.py`).
"""
import os
import threading
from collections import OrderedDict
from dataclasses import dataclass, field
from pathlib import Path

from cryptography.hazmat.primitives.asymmetric import rsa

from bsched_files.catalogue import (
    FAULTY_LINE,
    FILE_NAME,
    MOST_LINE,
    UPLOAD_NAME,
    WORKUNIT,
    Bounds,
    InputFile,
    OutputFile,
    is_faulty_line,
    line_folder,
    read_bounds,
    read_input_file,
    read_listed_file,
    read_output_files,
    version_number,
)
from bsched_files.toml_entries import Entry, Marks, OperatorFile

from ..common.code_signing import KeyFault, file_md5, is_signature, read_public_key
from ..requests.client_requests import ClientRequest
from ..requests.plan_classes import PlanClass, by_resource, read_plan_class, split
from .digest_programs import DigestProgram

MOST_KNOWN = 10_000  # files whose MD5 is kept


@dataclass(frozen=True, slots=True)
class DownloadFile:
    """A file that clients may download."""

    name: str
    size: int
    md5: str


@dataclass(frozen=True, slots=True)
class VersionFile:
    """A file of a version, with its signature; the client runs the main program."""

    file: DownloadFile
    signature: str
    is_main_program: bool
    is_executable: bool  # the client lets it run: the main program, and programs that the main program starts
    open_name: str | None  # the name under which the program opens it, if it is another one


@dataclass(frozen=True, slots=True)
class Version:
    """A version of an application for a platform."""

    app: str
    platform: str
    number: int
    files: tuple[VersionFile, ...]


@dataclass(frozen=True, slots=True)
class Work:
    """The command line and the input files of a workunit."""

    command_line: str
    input_files: tuple[InputFile, ...]
    line_folder: Path | None = None  # has for each workunit a file with the end of its command line

    def of(self, workunit: str) -> "Work":
        """Returns the same for one workunit, with its name in place of the placeholder."""
        files = tuple(
            InputFile(file.name.replace(WORKUNIT, workunit), file.open_name) for file in self.input_files
        )
        line = self.command_line.replace(WORKUNIT, workunit)
        if self.line_folder is not None:
            line = f"{line} {own_line(self.line_folder / workunit)}".strip()
        return Work(line, files)


@dataclass(frozen=True, slots=True)
class App:
    """An application."""

    name: str
    title: str
    bounds: Bounds
    is_reported_at_once: bool  # else the client waits for its next request, an hour at most
    work: Work
    output_files: tuple[OutputFile, ...] = ()  # without them its output is what it writes to standard error
    digest: DigestProgram | None = None  # None: its files must be equal


class MissingFile(Exception):
    """Raised if a file is missing or can't be read."""


def own_line(path: Path) -> str:
    """Returns the end of a workunit's command line, from its file."""
    try:
        with path.open("rb") as file:
            text = file.read(MOST_LINE + 2).decode().removesuffix("\n")
    except (OSError, UnicodeDecodeError):
        raise MissingFile(f"the command line {path}") from None
    if is_faulty_line(text):
        raise MissingFile(f"the command line {path}, which {FAULTY_LINE}, and so")
    return text


class FileFolder:
    """The folder of the files that clients may download."""

    def __init__(self, path: Path, has_uploads: bool = False, former: "FileFolder | None" = None) -> None:
        self.path, self.has_uploads = path, has_uploads
        self._known: OrderedDict[tuple[str, int, int], DownloadFile] = OrderedDict()
        self._lock = threading.Lock()
        if former is not None and former.path == path:
            self._known, self._lock = former._known, former._lock

    def path_of(self, name: str) -> Path:
        """Returns the path of the file with this name, if there is one."""
        path = self.path / name
        if not FILE_NAME.fullmatch(name) or not path.is_file():
            raise MissingFile(name)
        return path

    def stored(self, name: str) -> DownloadFile:
        """Returns a file with its size and MD5. The MD5 is computed again after the file was changed. It is
        kept for the files that were read last.
        """
        path = self.path_of(name)
        try:
            status = path.stat()
            key = (name, status.st_size, status.st_mtime_ns)
            with self._lock:
                known = self._known.get(key)
            if known is None:
                known = DownloadFile(name, status.st_size, file_md5(path))
                with self._lock:
                    self._known[key] = known
                    while len(self._known) > MOST_KNOWN:
                        self._known.popitem(last=False)
        except OSError:
            raise MissingFile(name) from None
        return known


@dataclass(frozen=True, slots=True)
class Catalogue:
    """What the catalogue file says."""

    code_sign_key: str
    folder: FileFolder
    apps: dict[str, App]
    versions: dict[tuple[str, str, int], Version]
    works: dict[str, Work] = field(default_factory=dict)  # of the workunits that have their own entry
    plan_classes: dict[str, PlanClass] = field(default_factory=dict)

    def work(self, app: App, workunit: str) -> Work:
        """Returns the command line and the input files of a workunit."""
        own = self.works.get(workunit)
        return app.work.of(workunit) if own is None else own

    def by_resource(self, request: ClientRequest) -> ClientRequest:
        """Returns a request as bsched gets it, with the platforms of plan classes."""
        if not self.plan_classes:
            return request
        platforms = frozenset(version.platform for version in self.versions.values())
        return by_resource(request, self.plan_classes.values(), platforms)


# ---- Reading


def check_download(entry: Entry, name: str, folder: FileFolder) -> None:
    """Refuses a name of a file that clients download if it could be that of an output file."""
    if folder.has_uploads and UPLOAD_NAME.fullmatch(name):
        entry.fault("name ends like that of an output file, with _NUMBER_NUMBER: choose another one", "name")


def read_work(entry: Entry, folder: FileFolder, of_app: bool) -> Work:
    """Reads the command line and the input files of an entry. A file whose name has no placeholder must
    exist.
    """
    command_line = entry.text("command_line", "")
    if is_faulty_line(command_line):
        entry.fault(f"command_line {FAULTY_LINE}", "command_line")
    lines = line_folder(entry) if of_app else None
    if lines is not None:
        entry.existing("command_lines")
        if not lines.is_dir():
            entry.fault(f"command_lines: {lines} is not a folder", "command_lines")
    files = []
    for item in entry.entries("input_files", []):
        file = read_input_file(item, of_app)
        check_download(item, file.name, folder)
        files.append(file)
        item.end()
        if WORKUNIT not in file.name or not of_app:
            try:
                folder.path_of(file.name)
            except MissingFile:
                item.note(folder.path / file.name)
                item.fault(f"the input file {folder.path / file.name} is not there")
    return Work(command_line, tuple(files), lines)


def read_app(entry: Entry, folder: FileFolder) -> App:
    """Reads an application."""
    name = entry.word("name")
    title = entry.text("title", name)
    if not title or not title.isprintable():
        entry.fault("title is empty, or has a character that can't be printed", "title")
    output_files = read_output_files(entry)
    app = App(
        name=name,
        title=title,
        bounds=read_bounds(entry),
        is_reported_at_once=entry.flag("report_immediately"),
        work=read_work(entry, folder, True),
        output_files=output_files,
        digest=read_digest(entry, output_files),
    )
    if app.digest is not None and not app.output_files:
        entry.fault("digest needs output_files", "digest")
    entry.end()
    return app


def read_digest(entry: Entry, files: tuple[OutputFile, ...]) -> DigestProgram | None:
    """Reads the digest program of an application with output files, if it has one."""
    if "digest" not in entry.members:
        return None
    path = entry.existing("digest")
    if not path.is_file() or not os.access(path, os.X_OK):
        entry.fault(f"digest: {path} is not a file that may be run", "digest")
    example = entry.existing("digest_example") if "digest_example" in entry.members else None
    if example is not None:
        for file in files:
            entry.note(example / file.open_name)
    return DigestProgram(path, entry.whole("digest_seconds", 1, 60, 10), example)


def read_version_file(entry: Entry, folder: FileFolder, key: rsa.RSAPublicKey) -> VersionFile:
    """Reads a file of a version. Its signature must be by this key."""
    listed = read_listed_file(entry)
    name = listed.name
    check_download(entry, name, folder)
    entry.note(folder.path / name)
    try:
        file = folder.stored(name)
    except MissingFile:
        entry.fault(f"the file {folder.path / name} is not there, or can't be read")
    path = entry.existing("signature")
    try:
        signature = path.read_text(encoding="ascii")
    except (OSError, UnicodeDecodeError):
        entry.fault(f"the signature {path} can't be read")
    if not is_signature(file.md5, signature, key):
        entry.fault(f"{path} is not the signature of {name} by the key of this catalogue")
    entry.end()
    return VersionFile(file, signature, listed.is_main_program, listed.is_executable, listed.open_name)


def read_version(entry: Entry, apps: dict[str, App], folder: FileFolder, key: rsa.RSAPublicKey) -> Version:
    """Reads a version."""
    app, platform = entry.word("app"), entry.word("platform")
    if app not in apps:
        entry.fault(f"there is no application {app}", "app")
    number = version_number(entry)
    files = tuple(read_version_file(item, folder, key) for item in entry.entries("files"))
    if sum(file.is_main_program for file in files) != 1:
        entry.fault("not exactly one of the files has main_program = true", "files")
    entry.end()
    return Version(app, platform, number, files)


def read_key(file: Entry) -> tuple[str, rsa.RSAPublicKey]:
    """Reads the code signing key, as text and as a key."""
    path = file.existing("code_sign_key")
    try:
        text = path.read_text(encoding="ascii")
        return text, read_public_key(text)
    except (OSError, UnicodeDecodeError):
        file.fault(f"code_sign_key: {path} can't be read", "code_sign_key")
    except KeyFault as fault:
        file.fault(f"code_sign_key: {path} {fault}", "code_sign_key")


def read_catalogue(path: Path, marks: Marks | None = None, former: FileFolder | None = None) -> Catalogue:
    """Reads the catalogue from a file. Paths in it are relative to its folder. `marks` gets the marks of the
    files that are read, also if there is a fault. What is known of the files in a former folder is kept.
    """
    file = OperatorFile(path, marks)
    text, key = read_key(file)
    has_uploads = any("output_files" in entry.members for entry in file.tables("app"))
    folder = FileFolder(file.existing("files"), has_uploads, former)
    catalogue = Catalogue(text, folder, {}, {})
    lines: dict[object, int] = {}

    def once(entry: Entry, what: str, name: object) -> None:
        """Refuses a name that was used before."""
        if (what, name) in lines:
            entry.fault(f"this {what} is already on line {lines[what, name]}")
        lines[what, name] = entry.line()

    for entry in file.tables("app"):
        app = read_app(entry, folder)
        once(entry, "app", app.name)
        catalogue.apps[app.name] = app
    for entry in file.tables("plan_class"):
        plan_class = read_plan_class(entry)
        once(entry, "plan_class", plan_class.name)
        catalogue.plan_classes[plan_class.name] = plan_class
    for entry in file.tables("version"):
        version = read_version(entry, catalogue.apps, folder, key)
        name = split(version.platform)[1]
        if name and name not in catalogue.plan_classes:
            entry.fault(f"there is no [[plan_class]] {name}", "platform")
        once(entry, "version", (version.app, version.platform, version.number))
        catalogue.versions[version.app, version.platform, version.number] = version
    for entry in file.tables("workunit"):
        name = entry.word("name")
        once(entry, "workunit", name)
        catalogue.works[name] = read_work(entry, folder, False)
        entry.end()
    file.end()
    return catalogue
