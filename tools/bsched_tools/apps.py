"""Adds an application, or a version of one, to a project: its files, their signatures, its entries in the
catalogue, and its rows in bsched.

All steps can be done again after any stop. A version is recognized by its files, so the same command never
makes a second one. The catalogue is changed by one rename, after the bridge has checked it.
"""
import argparse
import csv
import io
import re
from collections.abc import Iterator
from dataclasses import dataclass, field
from pathlib import Path
from typing import Any

from bsched_files.catalogue import FILE_NAME, MOST_OUTPUTS, UPLOAD_NAME, WORKUNIT
from bsched_files.counts import MOST
from bsched_files.faults import Fault
from bsched_files.programs import run
from bsched_files.tables import Tables
from bsched_files.texts import WORD

from .amounts import nbytes
from .catalogue_file import ProjectCatalogue, made_for_group, write_file
from .import_files import AGREEMENT, MOST_DISTANCE, read_import
from .imports import import_file
from .inputs import digest_of
from .project_access import check_importing, tables_of
from .projects import Project
from .volunteers import command_of_bridge

LINE_FOLDER = "lines"
SIGN_SECONDS = 60.0
VERSIONS = "SELECT num, platform FROM version JOIN app ON app.id = app_id WHERE app.name = ?1"
SUFFIX = re.compile(r"\.[A-Za-z][A-Za-z0-9]{0,7}")


@dataclass(frozen=True, slots=True)
class ProgramFile:
    """A file of a version, as it is given."""

    path: Path
    open_name: str
    is_main: bool
    nbytes: int
    sha256: str

    @property
    def is_executable(self) -> bool:
        """Whether it is a program that the main program starts."""
        return not self.is_main and bool(self.path.stat().st_mode & 0o111)


@dataclass(frozen=True, slots=True)
class NewApp:
    """What the command line asks for."""

    name: str
    platform: str
    files: list[ProgramFile]
    agreement: str
    members: dict[str, Any] = field(default_factory=dict)  # of the application's entry; None: not given


@dataclass(frozen=True, slots=True)
class NewVersion:
    """A version with its number, and the name of each of its files in the project."""

    number: int
    names: list[str]


# ---- What is asked for


def read_files(program: Path, further: list[str]) -> list[ProgramFile]:
    """Returns the files of a version. A further file is a path, maybe with the name under which the program
    opens it after a colon.
    """
    files = [ProgramFile(program, program.name, True, *digest_of(program))]
    for text in further:
        path_text, _, open_name = text.partition(":")
        path = Path(path_text)
        file = ProgramFile(path, open_name or path.name, False, *digest_of(path))
        if not FILE_NAME.fullmatch(file.open_name):
            raise Fault(f"--file {text}: {file.open_name!r} is not a file name: write --file PATH:NAME")
        if file.open_name in (one.open_name for one in files[1:]):
            raise Fault(f"--file {text}: another file has the name {file.open_name}")
        files.append(file)
    if files[0].nbytes == 0:
        raise Fault(f"{program}: it is empty")
    return files


def output_member(text: str) -> dict[str, Any]:
    """Returns an output file: NAME:BYTES, and maybe :optional and :ignored."""
    name, *parts = text.split(":")
    options = set(parts[1:])
    try:
        most = nbytes(parts[0]) if parts else 0
    except argparse.ArgumentTypeError:
        most = 0
    if not FILE_NAME.fullmatch(name) or most < 1 or not options <= {"optional", "ignored"}:
        example = "such as out:10M, or log:1M:optional:ignored"
        raise Fault(f"--output {text}: write its name and the most bytes that it may have, {example}")
    member: dict[str, Any] = {"open_name": name, "max_nbytes": most}
    if "optional" in options:
        member["optional"] = True
    if "ignored" in options:
        member["compare"] = False
    return member


def check_words(app: NewApp) -> None:
    """Refuses names and an agreement that bsched does not take."""
    for what, value in (("NAME", app.name), ("--platform", app.platform)):
        if not WORD.fullmatch(value) or not FILE_NAME.fullmatch(value):
            raise Fault(f"{what} {value!r}: it must have 1 to 64 letters, digits, '_', '-' or '.'")
    match = AGREEMENT.fullmatch(app.agreement)
    if app.agreement != "exact" and (match is None or int(match[1]) > MOST_DISTANCE):
        raise Fault(f"--agreement {app.agreement}: write exact, or within:N with a whole number N")
    if len(app.members.get("output_files") or []) > MOST_OUTPUTS:
        raise Fault(f"--output: an application has at most {MOST_OUTPUTS} output files")


def app_members(app: NewApp) -> dict[str, Any]:
    """Returns the entry of a new application. Without a word about inputs each workunit has an input file."""
    given = {key: value for key, value in app.members.items() if value is not None}
    has_inputs = "input_files" in given or "command_lines" in given
    inputs = {} if has_inputs else {"input_files": input_member("in")}
    return {"name": app.name, "title": app.name, **inputs, **given}


def input_member(open_name: str) -> list[dict[str, Any]]:
    """Returns the input file of each workunit."""
    if not FILE_NAME.fullmatch(open_name):
        raise Fault(f"--input {open_name!r}: it is not a file name")
    return [{"name": f"{WORKUNIT}.in", "open_name": open_name}]


# ---- What is there already


def agreement_of(tables: Tables, name: str) -> str | None:
    """Returns the agreement of an application in bsched, or None if it is not there."""
    row = next(tables.rows("SELECT agreement FROM app WHERE name = ?1", name), None)
    return None if row is None else "exact" if row[0] is None else f"within:{row[0]}"


def check_app(catalogue: ProjectCatalogue, app: NewApp, agreement: str | None) -> None:
    """Refuses an application that exists and is another one."""
    if agreement is not None and agreement != app.agreement:
        says = f"it exists with the agreement {agreement}, which can't be changed"
        raise Fault(f"--agreement {app.agreement}: {app.name}: {says}")
    former = catalogue.app(app.name)
    for key, value in app.members.items() if former else ():
        if former is not None and value is not None and former.members.get(key) != value:
            raise Fault(f"{catalogue.path}: {app.name} is there with another {key}: edit it there")


def check_plan_class(catalogue: ProjectCatalogue, platform: str) -> None:
    """Refuses a plan class, which is after the dot of a platform, that the catalogue does not have."""
    _, _, name = platform.partition(".")
    if name and name not in catalogue.plan_classes():
        lines = f'write [[plan_class]] and, on the next line, name = "{name}" at the end of {catalogue.path}'
        more = 'bridge/README, "Several processors, and coprocessors", has the further keys'
        raise Fault(f"--platform {platform}: there is no [[plan_class]] {name}: {lines}; {more}")


def name_in_project(app: NewApp, number: int, file: ProgramFile) -> str:
    """Returns the name of a file of a version, which no other version has. The main program keeps the end of
    its name, such as `.exe`.
    """
    front = f"{app.name}_{number}_{app.platform}"
    name = f"{front}_{file.open_name}"
    if file.is_main:
        suffix = file.path.suffix if SUFFIX.fullmatch(file.path.suffix) else ""
        name = front + suffix
    if not FILE_NAME.fullmatch(name) or UPLOAD_NAME.fullmatch(name):
        raise Fault(f"{file.path}: its name in the project would be {name}, which is none: rename it")
    return name


def is_same(path: Path, file: ProgramFile) -> bool:
    """Returns whether a file in the project has the bytes of a given one."""
    return path.is_file() and digest_of(path) == (file.nbytes, file.sha256)


def known_version(catalogue: ProjectCatalogue, app: NewApp) -> NewVersion | None:
    """Returns the newest version in the catalogue, if it has just the given files."""
    mine = [one for one in catalogue.versions(app.name) if one.platform == app.platform]
    newest = max(mine, key=lambda one: one.number, default=None)
    if newest is None or len(newest.files) != len(app.files):
        return None
    listed = sorted(newest.files, key=lambda one: not one.is_main_program)
    for one, file in zip(listed, app.files):
        is_named = file.is_main or (one.open_name or one.name) == file.open_name
        if not is_named or not is_same(catalogue.files / one.name, file):
            return None
    return NewVersion(newest.number, [one.name for one in listed])


def next_version(catalogue: ProjectCatalogue, app: NewApp, tables: Tables) -> NewVersion:
    """Returns the next version: that of other platforms, if this one has none of that number yet. A number
    whose files are there with other bytes is left out: they may wait for their signatures.
    """
    used = {(one.number, one.platform) for one in catalogue.versions(app.name)}
    used |= {(number, platform) for number, platform in tables.rows(VERSIONS, app.name)}
    number = max((number for number, _ in used), default=1) - 1
    while True:
        number += 1
        if (number, app.platform) in used:
            continue
        names = [name_in_project(app, number, file) for file in app.files]
        paths = [catalogue.files / name for name in names]
        if all(not path.exists() or is_same(path, file) for path, file in zip(paths, app.files)):
            return NewVersion(number, names)


# ---- The steps


class Addition:
    """The steps by which a version is added. A fault undoes what this run wrote."""

    def __init__(
        self, project: Project, catalogue: ProjectCatalogue, app: NewApp, version: NewVersion
    ) -> None:
        self.project, self.catalogue, self.app, self.version = project, catalogue, app, version
        self.former: dict[Path, bytes | None] = {}  # of the files that this run wrote; None: there was none

    def signature_path(self, name: str) -> Path:
        """Returns the path of the signature of a file."""
        return self.catalogue.path.with_name(f"{name}.signature")

    def undo(self) -> None:
        """Removes the files that this run made, and restores those that it replaced."""
        for path, data in self.former.items():
            if data is None:
                path.unlink(missing_ok=True)
            else:
                write_file(self.project, path, data)

    def write(self, path: Path, data: bytes) -> None:
        """Writes a file of the project."""
        try:
            former = path.read_bytes() if path.exists() else None
            if former == data:
                return
            write_file(self.project, path, data)
        except OSError as error:
            raise Fault(f"{error.filename or path}: {error.strerror}") from None
        self.former[path] = former

    def copy_files(self) -> None:
        """Copies the files into the folder of downloads."""
        for name, file in zip(self.version.names, self.app.files):
            self.write(self.catalogue.files / name, file.path.read_bytes())

    def sign(self, key: Path) -> None:
        """Signs the files with a private key."""
        for name in self.version.names:
            command = [*command_of_bridge(), "sign", str(self.catalogue.files / name), "--key", str(key)]
            done = run(command, SIGN_SECONDS)
            if done.returncode:
                raise Fault(done.stderr.strip().removeprefix("bsched-bridge: "))
            self.write(self.signature_path(name), done.stdout.encode())

    def unsigned(self) -> list[str]:
        """Returns the names of the files that have no signature."""
        return [name for name in self.version.names if not self.signature_path(name).exists()]

    def member_of(self, name: str, file: ProgramFile) -> dict[str, Any]:
        """Returns the member of a file in the catalogue."""
        member: dict[str, Any] = {"name": name, "signature": f"{name}.signature"}
        if file.is_main:
            return {**member, "main_program": True}
        if file.is_executable:
            member["executable"] = True
        return {**member, "open_name": file.open_name}

    def write_catalogue(self) -> None:
        """Adds what is missing in the catalogue."""
        entries: list[tuple[str, dict[str, Any]]] = []
        if self.catalogue.app(self.app.name) is None:
            members = app_members(self.app)
            if "command_lines" in members:
                made_for_group(self.project, self.catalogue.path.parent / members["command_lines"])
            entries.append(("app", members))
        files = [self.member_of(name, file) for name, file in zip(self.version.names, self.app.files)]
        front = {"app": self.app.name, "platform": self.app.platform, "version_num": self.version.number}
        entries.append(("version", {**front, "files": files}))
        self.catalogue.replace(self.catalogue.text_with(entries))


def csv_text(*rows: tuple[object, ...]) -> bytes:
    """Returns rows as comma-separated values."""
    file = io.StringIO()
    csv.writer(file, lineterminator="\n").writerows(rows)
    return file.getvalue().encode()


def import_rows(project: Project, kind: str, text: bytes) -> None:
    """Imports the rows of a text."""
    file = read_import(Path(f"{kind}.csv"), text)
    if isinstance(file, str):
        raise AssertionError(file)
    for _ in import_file(project, file):
        pass


def missing_rows(app: NewApp, version: NewVersion, tables: Tables) -> list[tuple[str, bytes]]:
    """Returns what bsched lacks of an application and its version. Refuses it if there is no room."""
    missing = []
    if agreement_of(tables, app.name) is None:
        missing.append(("apps", csv_text(("name", "agreement"), (app.name, app.agreement))))
    query = f"{VERSIONS} AND platform = ?2 AND num = ?3"
    if not tables.number(query, app.name, app.platform, version.number):
        row = (app.name, app.platform, version.number)
        missing.append(("versions", csv_text(("app", "platform", "version_num"), row)))
    for kind, _ in missing:
        table = kind.removesuffix("s")
        if tables.number(f"SELECT count(*) FROM {table}") >= MOST[table]:
            raise Fault(f'there is no room for more {kind}: see "Limits" in docs/WHEN_WRONG.md')
    return missing


def advice_to_sign(addition: Addition, names: list[str]) -> Iterator[str]:
    """Yields what to do with files that have no signature."""
    yield "sign these files on the machine that has the private key:"
    for name in names:
        yield f"  bsched-bridge sign {name} --key code_sign_private > {name}.signature"
    yield f"They are in {addition.catalogue.files}."
    yield f"Put the signatures into {addition.catalogue.path.parent}, and run the same command again."


def add_app(project: Project, app: NewApp, key: Path | None) -> Iterator[str]:
    """Adds an application or a version, and yields what was done."""
    check_words(app)
    if app.members.get("output_files"):
        project.check_uploads()
    catalogue = ProjectCatalogue(project)
    check_plan_class(catalogue, app.platform)
    if not catalogue.public_key.exists():
        where = catalogue.public_key.parent
        raise Fault(
            f"{catalogue.public_key}: there is no key: `cd {where}` and `bsched-bridge keygen` make one"
        )
    with tables_of(project) as (look, tables):
        check_importing(project, look)
        check_app(catalogue, app, agreement_of(tables, app.name))
        known = known_version(catalogue, app)
        version = known or next_version(catalogue, app, tables)
        missing = missing_rows(app, version, tables)
    addition = Addition(project, catalogue, app, version)
    if known is None:
        try:
            addition.copy_files()
            if key is not None:
                addition.sign(key)
            if names := addition.unsigned():
                yield from advice_to_sign(addition, names)
                addition.former.clear()
                raise Fault(f"{app.name}: {len(names)} of {len(version.names)} files are not signed yet")
            addition.write_catalogue()
        except BaseException:
            addition.undo()
            raise
    for kind, text in missing:
        import_rows(project, kind, text)
    is_new = known is None or missing
    yield (
        f"{app.name}: version {version.number} for {app.platform} "
        f"{'is added' if is_new else 'was there already'}: {', '.join(version.names)}"
    )
