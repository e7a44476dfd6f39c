"""The results of workunits, as comma-separated values or as lines of JSON."""
import json
import os
import stat
import sys
from collections.abc import Callable, Iterable, Iterator, Mapping
from contextlib import ExitStack, suppress
from dataclasses import dataclass, field, replace
from pathlib import Path
from typing import TextIO

from bsched_files.atomic import replace_file, sync
from bsched_files.faults import Fault
from bsched_files.tables import Tables, all_opened
from bsched_files.workunits import Result, Workunit, decided

from .cursors import Cursor, Given, cursor_at
from .placing import OutputFolder, Spoiled, check_stored
from .stuck import Stuck, stuck_in
from .texts import json_text, table_text
from .uploaded import OutputNames, UploadedFile, UploadFolder, uploads_in

COLUMNS = (
    "workunit",
    "app",
    "status",
    "reason",
    "millicredits",
    "canonical",
    "output",
    "result",
    "verdict",
    "host",
    "user",
    "late",
)


@dataclass(frozen=True, slots=True)
class Line:
    """A workunit with those of its results that were not given out before."""

    workunit: Workunit
    is_late: bool  # the workunit was given out before, and these are further results
    files: list[UploadedFile] | None = None  # of the canonical result; None if nobody asks for them


def as_csv(line: Line) -> str:
    """Returns a workunit as comma-separated values: a row for each result, or one row if it failed."""
    unit, late = line.workunit, int(line.is_late)
    status = "failed" if unit.reason else "done"
    front = (unit.name, unit.app, status, unit.reason, unit.millicredits, unit.canonical, unit.output)
    end: tuple[object, ...] = (late,)
    if line.files is not None:
        end = late, json.dumps([file.as_member() for file in line.files])
    if unit.reason:
        return table_text([(*front, "", "", "", "", *end)])
    rows = []
    for one in unit.results:
        verdict = "valid" if one.is_valid else "invalid"
        rows.append((*front, one.name, verdict, one.host, one.user, *end))
    return table_text(rows)


def member_of(result: Result) -> dict[str, object]:
    """Returns a result as a member of a line of JSON."""
    return {"result": result.name, "host": result.host, "user": result.user}


def as_json(line: Line) -> str:
    """Returns a workunit as a line of JSON."""
    unit = line.workunit
    fields: dict[str, object] = {"workunit": unit.name, "app": unit.app, "late": line.is_late}
    if unit.reason:
        fields |= {"status": "failed", "reason": unit.reason}
    else:
        fields |= {
            "status": "done",
            "millicredits": unit.millicredits,
            "canonical": unit.canonical,
            "output": unit.output,
            "valid": [member_of(one) for one in unit.results if one.is_valid],
            "invalid": [member_of(one) for one in unit.results if not one.is_valid],
        }
        if line.files is not None:
            fields["files"] = [file.as_member() for file in line.files]
    return f"{json_text(fields)}\n"


def new_line(unit: Workunit, given: Given) -> Line | None:
    """Returns the line of a workunit with what was not given out before, and counts it as given out. Returns
    None if nothing is new."""
    if unit.id in given.closed:
        given.left_out += 1
        return None
    last = given.places.pop(unit.id, None)
    fresh = tuple(one for one in unit.results if last is None or one.place > last)
    if unit.is_closed:
        given.closed.add(unit.id)
    else:
        given.places[unit.id] = max([last or 0, *(one.place for one in fresh)])
    if fresh or last is None:
        given.printed += 1
        return Line(replace(unit, results=fresh), last is not None)
    given.left_out += 1
    return None


def lines_of(tables: Tables, after: int, given: Given | None) -> Iterator[Line]:
    """Yields the lines of some tables: all of them, or those that were not given out before."""
    for unit in decided(tables, after):
        line = Line(unit, False) if given is None else new_line(unit, given)
        if line is not None:
            yield line


def places_after(all_tables: list[Tables], name: str) -> dict[Path, int]:
    """Returns the number of the workunit after which each file's results begin, if all results begin after
    the workunit with this name. Files before the one with that workunit are left out."""
    query = "SELECT id FROM unit WHERE name = ?1"
    found = [(at, number) for at, tables in enumerate(all_tables) if (number := tables.number(query, name))]
    if len(found) != 1:
        where = "no file" if not found else "several of the files"
        raise Fault(f"{all_tables[0].path}: the workunit {name} of --after is in {where}")
    ((at, number),) = found
    return {tables.path: number if tables is all_tables[at] else 0 for tables in all_tables[at:]}


def flushed(file: TextIO) -> None:
    """Flushes what was written. If it goes to a file, it is then on the disk."""
    file.flush()
    with suppress(OSError, ValueError):
        if stat.S_ISREG(os.fstat(file.fileno()).st_mode):
            os.fsync(file.fileno())


@dataclass(frozen=True, slots=True)
class Output:
    """The form of the results, and where their files are and go."""

    as_lines: bool  # lines of JSON
    uploads: UploadFolder | None  # the bridge's folder of uploads, if files are asked for
    files_to: OutputFolder | None  # the folder that gets the files
    are_compared: bool = False  # each file is compared, also without such a folder

    def text(self, line: Line) -> str:
        """Returns the text of a line. Its files are in their place then. Raises Spoiled if one of them is not
        what the host uploaded."""
        if self.uploads is not None:
            files = self.uploads.files_of(line.workunit)
            line = replace(line, files=files)
            if self.files_to is not None and not line.is_late:
                self.files_to.place(files, line.workunit.name)
            elif self.are_compared and not line.is_late:
                for file in files:
                    check_stored(file, line.workunit.name)
        return as_json(line) if self.as_lines else as_csv(line)


@dataclass(slots=True)
class Written:
    """What was written, apart from the results."""

    why_nothing: str | None = None  # why there are none, if the cursor left all out
    spoiled: list[str] = field(default_factory=list)  # for each file that is wrong what is wrong with it
    stuck: list[Stuck] = field(default_factory=list)  # of the tables that were named last


def texts(
    all_tables: list[Tables], output: Output, after: str | None, cursor: Cursor | None, spoiled: list[str]
) -> Iterator[str]:
    """Yields the parts of the text to write. A workunit with a spoiled file is left out, and the cursor does
    not count it as given out."""
    begins = dict.fromkeys((tables.path for tables in all_tables), 0)
    if after is not None:
        begins = places_after(all_tables, after)
    if not output.as_lines:
        yield table_text([COLUMNS if output.uploads is None else (*COLUMNS, "files")])
    for tables in all_tables:
        if tables.path in begins:
            given = cursor.given(tables) if cursor else None
            for line in lines_of(tables, begins[tables.path], given):
                try:
                    yield output.text(line)
                except Spoiled as what:
                    spoiled.append(str(what))
                    if given is not None:
                        given.take_back(line.workunit.id)


def write_results(
    paths: Iterable[Path],
    as_lines: bool = False,
    after: str | None = None,
    cursor: Path | None = None,
    target: Path | None = None,
    file: TextIO | None = None,
    names: Mapping[str, str] | None = None,
    uploads: Path | None = None,
    output_names: OutputNames | None = None,
    files_to: Path | None = None,
    is_linked: bool = False,
    are_compared: bool = False,
    take: Callable[[], None] | None = None,
) -> Written:
    """Writes the results of tables to standard output or to a new file, as comma-separated values or as lines
    of JSON. With a folder of uploads they name the files of canonical results, and files_to gets these files.
    Then `take` is called. The cursor is written last. If a stop or a fault comes before that, the same
    results come again.
    """
    outcome = Written()
    with ExitStack() as stack:
        kept = stack.enter_context(cursor_at(cursor)) if cursor is not None else None
        if target is not None and target.exists():
            raise Fault(f"{target}: it exists: process what it has, and remove it")
        if files_to is not None and not files_to.is_dir():
            raise Fault(f"{files_to}: it is not a folder: make it first")
        all_tables = stack.enter_context(all_opened(paths, names))
        outcome.stuck = [one for tables in all_tables[-1:] for one in stuck_in(tables)]
        opened_uploads = (
            stack.enter_context(uploads_in(uploads, output_names)) if uploads is not None else None
        )
        folder = None if files_to is None else stack.enter_context(OutputFolder(files_to, is_linked))
        output = Output(as_lines, opened_uploads, folder, are_compared)
        parts = texts(all_tables, output, after, kept, outcome.spoiled)
        if target is not None:
            replace_file(target, (part.encode() for part in parts))
        else:
            stream = file or sys.stdout
            stream.writelines(parts)
            flushed(stream)
        if files_to is not None:
            sync(files_to)
        if take is not None:
            take()
        if kept is not None:
            kept.write()
            outcome.why_nothing = None if outcome.spoiled else kept.why_nothing()
    return outcome
