"""Collects the outputs of workunits into a folder, again and again as they come.

DIR/WORKUNIT/NAME     an output file of a workunit that is done
DIR/results.csv       a row for each workunit that is done
DIR/failed.csv        a row for each workunit that failed, with the reason
DIR/open.csv          a row for each workunit that is open: it waits, is out, or is stuck, and why
DIR/.collected        the cursor: a folder that was removed after it was read does not come again

Each run writes the rows of the workunits that it looks at anew. Rows of others stay: of other batches, and of
workunits that the tables don't have any more. The cursor is written last.
"""
import csv
import io
from collections.abc import Iterator
from contextlib import ExitStack
from dataclasses import dataclass, field
from pathlib import Path

from bsched_files.faults import Fault
from bsched_files.tables import Tables, all_opened
from bsched_files.workunits import IS_HELD, Workunit, decided

from .catalogue_file import output_names_of
from .cursors import Cursor, Given, cursor_at
from .placing import OutputFolder, Spoiled
from .progress import names_in_batch
from .project_access import Look
from .projects import Project
from .results import new_line
from .stuck import Stuck, named, stuck_in
from .submitting import read_record
from .texts import table_text
from .uploaded import UploadedFile, UploadFolder, uploads_in

RESULTS, FAILED, OPENED, CURSOR = "results.csv", "failed.csv", "open.csv", ".collected"
RESULT_COLUMNS = ("workunit", "input", "result", "credit", "output", "files")
FAILED_COLUMNS = ("workunit", "input", "reason")
OPEN_COLUMNS = ("workunit", "input", "state", "reason", "errors", "last_error")
OPEN_UNITS = f"""
SELECT name, EXISTS (SELECT 1 FROM instance WHERE unit_id = unit.id AND {IS_HELD})
FROM unit WHERE status = 0 ORDER BY id
"""


@dataclass(slots=True)
class Collected:
    """What a run found."""

    rows: list[tuple[str, ...]] = field(default_factory=list)
    failed: list[tuple[str, ...]] = field(default_factory=list)
    open: list[tuple[str, ...]] = field(default_factory=list)
    stuck: list[Stuck] = field(default_factory=list)
    seen: set[str] = field(default_factory=set)  # the workunits that this run looked at
    fresh: int = 0  # workunits that are done and were not there in the run before
    spoiled: dict[str, str] = field(default_factory=dict)  # by workunit what is wrong with one of its files

    @property
    def done(self) -> int:
        """How many workunits are done."""
        return len(self.rows) + len(self.spoiled)


def inputs_of(project: Project) -> dict[str, str]:
    """Returns the input of each workunit that `submit` made."""
    inputs: dict[str, str] = {}
    for path in sorted((project.folder / "submitted").glob("*.json")):
        inputs |= {one[0]: one[1] for one in read_record(path)["inputs"]}
    return inputs


def chosen_in(all_tables: list[Tables], batch: str | None) -> list[set[str] | None]:
    """Returns the names of the workunits of a batch in each of the tables, or None for all workunits."""
    if batch is None:
        return [None for _ in all_tables]
    chosen: list[set[str] | None] = []
    for tables in all_tables:
        try:
            chosen.append(names_in_batch(tables, batch))
        except Fault as fault:
            absent = fault
            chosen.append(set())
    if not any(chosen):
        raise absent
    return chosen


def row_of(unit: Workunit, shown: str, files: list[UploadedFile]) -> tuple[str, ...]:
    """Returns the row of a workunit that is done."""
    credit = f"{unit.millicredits / 1000:g}"
    output = "" if files else unit.output or ""
    return unit.name, shown, unit.canonical or "", credit, output, " ".join(file.name for file in files)


def csv_bytes(columns: tuple[str, ...], rows: list[tuple[str, ...]]) -> bytes:
    """Returns rows as comma-separated values."""
    return table_text([columns, *rows]).encode()


class Collector:
    """Collects the outputs of some tables into a folder."""

    def __init__(self, project: Project, folder: OutputFolder, uploads: UploadFolder | None) -> None:
        self.folder, self.uploads = folder, uploads
        self.inputs, self.found = inputs_of(project), Collected()

    def files_of(self, unit: Workunit) -> list[UploadedFile]:
        """Returns the files of a workunit that is done."""
        return [] if self.uploads is None else self.uploads.files_of(unit)

    def take(self, tables: Tables, cursor: Cursor, names: set[str] | None) -> None:
        """Takes the workunits with these names. One with a spoiled file is left out, and comes again."""
        units = {name for name, in tables.rows("SELECT name FROM unit")}
        self.found.seen |= units if names is None else names & units
        given = cursor.given(tables)
        for unit in decided(tables):
            if names is None or unit.name in names:
                self.take_decided(unit, given)

    def take_decided(self, unit: Workunit, given: Given) -> None:
        """Takes a workunit that is done or has failed. If it is newly done, its files get their place."""
        shown = self.inputs.get(unit.name, "")
        files = [] if unit.reason else self.files_of(unit)
        line = new_line(unit, given)
        if line is not None and not line.is_late and not unit.reason:
            try:
                self.put(unit, files)
                self.found.fresh += 1
            except Spoiled as what:
                given.take_back(unit.id)
                self.found.spoiled[unit.name] = str(what)
        if unit.name in self.found.spoiled:
            return
        if unit.reason:
            self.found.failed.append((unit.name, shown, f"too many {unit.reason}"))
        else:
            self.found.rows.append(row_of(unit, shown, files))

    def put(self, unit: Workunit, files: list[UploadedFile]) -> None:
        """Puts the files of a workunit into a folder of its own."""
        if files and unit.name in (RESULTS, FAILED, OPENED):
            raise Fault(f"{self.folder.path / unit.name}: a workunit has the name of this file")
        self.folder.place(files, unit.name)

    def take_open(self, tables: Tables, names: set[str] | None) -> None:
        """Takes the open workunits with these names."""
        self.found.stuck = list(stuck_in(tables, names))
        stuck = {one.name: one for one in self.found.stuck}
        for name, is_out in tables.rows(OPEN_UNITS):
            if names is None or name in names:
                front = name, self.inputs.get(name, "")
                if (one := stuck.get(name)) is not None:
                    row = (*front, "stuck", one.why, str(one.errors), one.last_error)
                else:
                    row = (*front, "out" if is_out else "waiting", "", "", "")
                self.found.open.append(row)

    def write(self, is_whole: bool) -> None:
        """Writes the tables. What is open no more has no row, if the run looked at all workunits."""
        for name, columns, rows in (
            (RESULTS, RESULT_COLUMNS, self.found.rows),
            (FAILED, FAILED_COLUMNS, self.found.failed),
            (OPENED, OPEN_COLUMNS, self.found.open),
        ):
            kept = [] if is_whole and name == OPENED else self.kept_rows(name, columns)
            self.folder.write(name, csv_bytes(columns, [*kept, *rows]))

    def kept_rows(self, name: str, columns: tuple[str, ...]) -> list[tuple[str, ...]]:
        """Returns the rows of a table for workunits that this run did not look at."""
        data = self.folder.read(name)
        if data is None:
            return []
        try:
            header, *rows = csv.reader(io.StringIO(data.decode(), newline=""), strict=True)
        except (ValueError, csv.Error):
            header, rows = [], []
        if tuple(header) != columns or any(len(row) != len(columns) for row in rows):
            path = self.folder.path / name
            raise Fault(f"{path}: it is not a table that `collect` wrote: move it to another folder")
        return [tuple(row) for row in rows if row[0] not in self.found.seen]


def collect_files(
    project: Project, look: Look, batch: str | None, folder: Path, is_linked: bool = False
) -> Collected:
    """Collects the outputs of a batch, or all, into a folder, and returns what was found."""
    try:
        folder.mkdir(exist_ok=True)
    except OSError as error:
        raise Fault(f"{folder}: {error.strerror}") from None
    with ExitStack() as stack:
        cursor = stack.enter_context(cursor_at(folder / (CURSOR if batch is None else f"{CURSOR}-{batch}")))
        all_tables = stack.enter_context(all_opened([*project.archives, look.path]))
        uploads, opened_uploads = project.uploads, None
        if uploads is not None:
            opened_uploads = stack.enter_context(uploads_in(uploads, output_names_of(project)))
        target = stack.enter_context(OutputFolder(folder, is_linked))
        collector = Collector(project, target, opened_uploads)
        chosen = chosen_in(all_tables, batch)
        for tables, names in zip(all_tables, chosen):
            collector.take(tables, cursor, names)
        collector.take_open(all_tables[-1], chosen[-1])
        collector.write(batch is None)
        cursor.write()
    return collector.found


def collected_lines(look: Look, found: Collected, folder: Path) -> Iterator[str]:
    """Yields what a run collected."""
    yield look.moment_line
    spoiled = f"; {len(found.spoiled):,} left out" if found.spoiled else ""
    yield f"{folder}: {found.fresh:,} new of {found.done:,} done; {len(found.failed):,} failed{spoiled}"
    if found.stuck:
        yield f"stuck: {len(found.stuck):,} of {len(found.open):,} open ({OPENED}): {named(found.stuck)}"
