"""Makes a batch of work: stages its inputs for the bridge, and imports its workunits.

The steps, each of which can be done again after any stop: everything is checked, and nothing is changed yet.
A record of the batch is written, in the folder `submitted` of the project. The inputs are staged under names
that only this batch has, and synced. The workunits are imported. A batch of bsched with the same bytes is
imported once, so a second run makes nothing twice. A batch whose record says something else is refused.
"""
import json
import os
import stat
from collections.abc import Iterable, Iterator
from dataclasses import dataclass
from pathlib import Path
from typing import Any

from bsched_files.atomic import copy_bytes, new_file
from bsched_files.catalogue import FILE_NAME, UPLOAD_NAME, WORKUNIT, App, CatalogueFile
from bsched_files.counts import MOST
from bsched_files.faults import Fault
from bsched_files.moments import DAY, HOUR
from bsched_files.tables import Tables
from bsched_files.texts import MILLICREDITS

from .amounts import bytes_text, count_text
from .catalogue_file import give_to_group, made_for_group, write_file
from .import_files import KINDS, ImportFile, Row
from .imports import Batch, Sender, batches_of, refusal_text
from .inputs import Input, digest_of
from .progress import begun, earlier, progress_of, span_text
from .progress_bars import Bar
from .project_access import check_importing, tables_of
from .projects import Project
from .stuck import stuck_in

SPEED = 4 * 10**9  # operations a second of one processor of a usual PC, which --hours means
CREDIT_OF_HOUR = 200 * SPEED / 10**9 / 24  # BOINC's: 200 credits for a day at 10^9 a second
MOST_INSTANCES = 100  # of a workunit
ERRORS_COLUMN = 2  # in the columns of a record
FORMAT = 1
SHOWN_WORKUNITS = 3
QUEUED = "SELECT name, sum(queued) FROM instance JOIN unit ON unit.id = unit_id WHERE queued GROUP BY unit_id"
READ_BY_OTHERS, READ_BY_GROUP = stat.S_IROTH, stat.S_IRGRP


@dataclass(frozen=True, slots=True)
class Amounts:
    """What each workunit takes and gives."""

    hours: float
    days: float  # until the deadline
    memory: int
    disk: int
    quorum: int
    errors: int  # with more client errors it fails
    credit: float

    @property
    def columns(self) -> list[str]:
        """The columns of an import after the name and the application."""
        quorum, successes = self.quorum, 2 * self.quorum + 2
        total = min(MOST_INSTANCES, max(3 * quorum + 4, self.errors + successes))
        numbers = [quorum, quorum, self.errors, total, successes, round(self.days * DAY)]
        numbers += [
            round(self.hours * HOUR * SPEED),
            self.memory,
            self.disk,
            round(self.credit * MILLICREDITS),
        ]
        return [str(number) for number in numbers]


@dataclass(frozen=True, slots=True)
class Plan:
    """A batch of work, with the place of each input."""

    batch: str
    app: App
    amounts: Amounts
    inputs: list[Input]
    folder: Path  # of the staged inputs
    places: list[Path]
    slice_size: int | None = None  # workunits that are imported at once; None: all of them

    @property
    def batches(self) -> list[Batch]:
        """The imports."""
        names = (one.workunit for one in self.inputs)
        return batches_by(self.batch, names, [self.app.name, *self.amounts.columns], self.slice_size)

    @property
    def record(self) -> dict[str, Any]:
        """What is kept of the batch."""
        inputs = [[one.workunit, one.shown, one.nbytes, one.sha256] for one in self.inputs]
        record = {
            "format": FORMAT,
            "batch": self.batch,
            "app": self.app.name,
            "columns": self.amounts.columns,
            "inputs": inputs,
        }
        return record if self.slice_size is None else {**record, "slice": self.slice_size}


def batches_by(batch: str, names: Iterable[str], front: list[str], slice_size: int | None) -> list[Batch]:
    """Returns the imports of workunits with these names, all of which have the same other columns."""
    kind = KINDS["workunits"]
    rows = [Row(number, [name, *front]) for number, name in enumerate(names, 2)]
    return list(batches_of(ImportFile(Path(batch), kind, kind.headers()[0], rows), batch, slice_size))


# ---- The plan


def app_of(catalogue: CatalogueFile, name: str) -> App:
    """Returns the application with a name."""
    app = catalogue.app(name)
    if app is None:
        names = ", ".join(sorted(app.name for app in catalogue.apps())) or "none"
        raise Fault(f"{catalogue.path}: there is no application {name}; there are: {names}")
    if not catalogue.versions(name):
        raise Fault(f"{catalogue.path}: the application {name} has no version: add one by `bsched-tools app`")
    return app


def places_of(catalogue: CatalogueFile, app: App, inputs: list[Input]) -> tuple[Path, list[Path]]:
    """Returns the folder of the staged inputs of workunits, and the place of each."""
    is_files = inputs[0].path is not None
    lines = app.line_folder
    if is_files and len(app.inputs) != 1:
        what = "several input files" if app.inputs else "a command line, and no input file"
        raise Fault(f"{catalogue.path}: a workunit of {app.name} has {what}: see `bsched-tools app --input`")
    if not is_files and (lines is None or app.inputs):
        what = "an input file for each workunit, and no command lines" if app.inputs else "no command lines"
        raise Fault(f"{catalogue.path}: {app.name} takes {what}: see `bsched-tools app --command-lines`")
    if not is_files and lines is not None:
        return lines, [lines / one.workunit for one in inputs]
    names = [app.inputs[0].replace(WORKUNIT, one.workunit) for one in inputs]
    for name, one in zip(names, inputs):
        if not FILE_NAME.fullmatch(name) or UPLOAD_NAME.fullmatch(name):
            raise Fault(f"{one.shown}: its name {name} can't be that of a download: choose another --batch")
    return catalogue.files, [catalogue.files / name for name in names]


def check_sizes(catalogue: CatalogueFile, plan: Plan) -> None:
    """Refuses inputs that don't fit into the disk that a job may use, and bounds that the client ignores."""
    app, amounts = plan.app, plan.amounts
    limits = (("--disk", amounts.disk, app.bounds.disk), ("--memory", amounts.memory, app.bounds.memory))
    for option, value, most in limits:
        if value > most:
            what = f"more than {most}, which the catalogue allows for {app.name}"
            raise Fault(f"{option} {value}: it is {what}: raise rsc{option.replace('--', '_')}_bound there")
    if plan.inputs[0].path is None:
        return
    outputs = sum(file.max_nbytes for file in app.output_files)
    room = amounts.disk - catalogue.version_bytes(app.name) - outputs
    for one in plan.inputs:
        if one.nbytes > room:
            says = f"it has {bytes_text(one.nbytes)}, and with its program and outputs a job may use"
            raise Fault(f"{one.shown}: {says} {bytes_text(amounts.disk)} of disk: give a larger --disk")


# ---- What is there already


def record_path(project: Project, batch: str) -> Path:
    """Returns the path of the record of a batch."""
    return project.folder / "submitted" / f"{batch}.json"


def read_record(path: Path) -> dict[str, Any]:
    """Returns a record."""
    try:
        record = json.loads(path.read_text())
        if record["format"] == FORMAT and isinstance(record["inputs"], list):
            return dict(record)
    except OSError as error:
        raise Fault(f"{path}: {error.strerror}") from None
    except (ValueError, KeyError, TypeError):
        pass
    raise Fault(f"{path}: it is no record of a batch: restore it, or choose another --batch")


def errors_of(project: Project, batch: str, quorum: int) -> int:
    """Returns how many client errors a workunit of a batch may have, if the command line does not say it: as
    the batch was made, if it exists. Who trusts a single result trusts a single error, too."""
    path = record_path(project, batch)
    if path.exists():
        columns = read_record(path).get("columns")
        if (
            isinstance(columns, list)
            and len(columns) > ERRORS_COLUMN
            and str(columns[ERRORS_COLUMN]).isdecimal()
        ):
            return int(columns[ERRORS_COLUMN])
    return 0 if quorum == 1 else quorum


def errors_text(errors: int) -> str:
    """Returns what a number of client errors means for a workunit."""
    if errors == 0:
        return "a workunit fails at its first client error"
    return f"a workunit fails with more than {count_text(errors, 'client error')}, each by another user"


def check_record(project: Project, plan: Plan) -> None:
    """Refuses a batch whose name was used for something else."""
    path = record_path(project, plan.batch)
    if not path.exists():
        return
    former, record = read_record(path), plan.record
    again = f"the batch {plan.batch} was made"
    if former["app"] != record["app"]:
        raise Fault(f"{path}: {again} for the application {former['app']}: choose another --batch")
    if former["columns"] != record["columns"]:
        other = "other hours, memory, disk, quorum, errors or credit"
        raise Fault(f"{path}: {again} with {other}: choose another --batch")
    if former.get("slice") != record.get("slice"):
        size = former.get("slice")
        says = "without --slice" if size is None else f"with --slice {size}"
        raise Fault(f"{path}: {again} {says}: give the same, or choose another --batch")
    for new, old in zip(record["inputs"], former["inputs"]):
        if (new[0], *new[2:]) != (old[0], *old[2:]):
            raise Fault(f"{new[1]}: {again} of other inputs (there {old[1]}): choose another --batch")
    if len(record["inputs"]) != len(former["inputs"]):
        counts = f"{len(former['inputs'])} inputs, and not of {len(record['inputs'])}"
        raise Fault(f"{path}: {again} of {counts}: choose another --batch")


def missing_batches(plan: Plan, tables: Tables) -> list[Batch]:
    """Returns the batches of a plan that are not imported yet. Refuses what could not be imported."""
    if not tables.number("SELECT count(*) FROM app WHERE name = ?1", plan.app.name):
        advice = f"add it by `bsched-tools app {plan.app.name}`, or import it"
        raise Fault(f"{plan.app.name}: the scheduler has no such application: {advice}")
    missing = missing_among(plan.batch, plan.batches, tables)
    for batch in missing:
        for one in batch.rows:
            if tables.number("SELECT count(*) FROM unit WHERE name = ?1", one.fields[0]):
                raise Fault(f"{one.fields[0]}: there is a workunit with this name: choose another --batch")
    return missing


def missing_among(name: str, batches: Iterable[Batch], tables: Tables) -> list[Batch]:
    """Returns the batches that are not imported yet. Other bytes under the name of one are a fault."""
    missing = []
    for batch in batches:
        row = next(
            tables.rows("SELECT text FROM batch WHERE kind = 'workunits' AND name = ?1", batch.name), None
        )
        if row is None:
            missing.append(batch)
        elif bytes(row[0]) != batch.text:
            says = f"other workunits were imported as the batch {batch.name}"
            raise Fault(f"--batch {name}: {says}: choose another name")
    return missing


def next_batches(missing: list[Batch], waiting: int, slice_size: int | None) -> list[Batch]:
    """Returns the batches that are imported now: as many as it takes for a slice of workunits to wait."""
    if slice_size is None:
        return missing
    chosen = []
    for batch in missing:
        if waiting >= slice_size:
            break
        chosen.append(batch)
        waiting += len(batch.rows)
    return chosen


def waiting_of(tables: Tables, names: set[str]) -> int:
    """Returns how many workunits with these names wait for a computer that can take them."""
    return progress_of(tables, names).waiting - len(list(stuck_in(tables, names)))


def room_of(tables: Tables) -> int:
    """Returns how many further workunits the tables can have."""
    return MOST["unit"] - tables.number("SELECT count(*) FROM unit")


def check_room(missing: list[Batch], room: int) -> None:
    """Refuses workunits for which there is no room."""
    needed = sum(len(batch.rows) for batch in missing)
    if needed > room:
        advice = 'see "More than 200,000 workunits" in docs/NEXT_FILE.md'
        raise Fault(f"there is room for {room:,} further workunits, and not for {needed:,}: {advice}")


def is_staged(one: Input, place: Path) -> bool:
    """Returns whether an input is in its place. Other bytes there are a fault."""
    try:
        if not place.exists():
            return False
        if one.path is not None and place.samefile(one.path):
            return True
    except OSError as error:
        raise Fault(f"{place}: {error.strerror}") from None
    wanted = (one.nbytes, one.sha256)
    nbytes, sha256 = digest_of(place)
    if one.path is None and nbytes == one.nbytes + 1 and place.read_bytes() == f"{one.shown}\n".encode():
        return True
    if (nbytes, sha256) != wanted:
        raise Fault(f"{place}: it is there with other bytes: choose another --batch")
    return True


def unstaged(plan: Plan) -> list[tuple[Input, Path]]:
    """Returns the inputs that are not in their places yet."""
    return [(one, place) for one, place in zip(plan.inputs, plan.places) if not is_staged(one, place)]


# ---- Staging


def linked(project: Project, path: Path, place: Path) -> bool:
    """Puts an input into its place by a hard link, if the bridge may read it. Returns whether it did."""
    try:
        source = path.resolve()
        if is_readable(project, source):
            os.link(source, place)
            return True
    except OSError:
        pass
    return False


def stage(project: Project, one: Input, place: Path, is_linked: bool) -> Path | None:
    """Writes a copy of an input next to its place, and returns the copy, which gets its name once it is on
    the disk. Returns None if a hard link was asked for, and is in the place already."""
    if is_linked and one.path is not None and linked(project, one.path, place):
        return None
    new = place.with_name(f".{place.name}.part")
    try:
        with new_file(new, 0o640) as file:
            give_to_group(project, file.fileno())
            if one.path is None:
                file.write(f"{one.shown}\n".encode())
            else:
                copy_input(one, one.path, file.fileno())
    except BaseException as error:
        new.unlink(missing_ok=True)
        if isinstance(error, OSError):
            where = error.filename or place
            raise Fault(f"{where}: {error.strerror}: run the same command again later") from None
        raise
    return new


def copy_input(one: Input, path: Path, target: int) -> None:
    """Copies an input into an open file. It must be what was read before."""
    with path.open("rb") as source:
        copied = copy_bytes(source.fileno(), target, one.nbytes)
    if copied.fault:
        raise Fault(f"{path}: {copied.fault}")
    if (copied.nbytes, copied.sha256) != (one.nbytes, one.sha256):
        raise Fault(f"{path}: it was changed while it was read: run the same command again")


def is_readable(project: Project, path: Path) -> bool:
    """Returns whether the group of the project may read a file."""
    status = path.stat()
    is_of_group = status.st_gid == project.settings.stat().st_gid
    return bool(status.st_mode & (READ_BY_OTHERS | (READ_BY_GROUP if is_of_group else 0)))


def write_record(project: Project, plan: Plan) -> None:
    """Writes the record of a batch, if it is not there."""
    path = record_path(project, plan.batch)
    if path.exists():
        return
    folder = made_for_group(project, path.parent)
    try:
        write_file(project, folder / path.name, json.dumps(plan.record).encode())
    except OSError as error:
        raise Fault(f"{path}: {error.strerror}") from None


def stage_all(project: Project, plan: Plan, left: list[tuple[Input, Path]], is_linked: bool) -> None:
    """Stages the inputs. All of them are on the disk when it returns. Copies get their names after a sync, so
    no power failure leaves a part of one under its name."""
    bar, copies = Bar("staging the inputs"), list[tuple[Path, Path]]()
    try:
        if plan.inputs[0].path is None:
            made_for_group(project, plan.folder)
        for number, (one, place) in enumerate(left, 1):
            if (new := stage(project, one, place, is_linked)) is not None:
                copies.append((new, place))
            bar.seen(number, len(left))
    except BaseException:  # the disk may be full, and the scheduler needs room there
        for new, _ in copies:
            new.unlink(missing_ok=True)
        raise
    finally:
        bar.end()
    os.sync()
    for new, place in copies:
        os.rename(new, place)
    os.sync()


def import_all(project: Project, name: str, missing: list[Batch]) -> int:
    """Imports the batches, and returns how many workunits they have."""
    sender, bar = Sender(project), Bar("importing")
    kind, total, done = KINDS["workunits"], sum(len(batch.rows) for batch in missing), 0
    file = ImportFile(Path(name), kind, kind.headers()[0], [])
    try:
        for batch in missing:
            answer = sender.answer(kind.name, batch)
            if "error" in answer:
                kept = f" ({done} workunits before it are imported)" if done else ""
                raise Fault(f"--batch {name}: {refusal_text(answer, file, batch)}{kept}")
            done += len(batch.rows)
            bar.seen(done, total)
    finally:
        bar.end()
    return done


# ---- The command


def queue_line(project: Project, tables: Tables) -> str | None:
    """Returns how many jobs wait before new ones, and how long they take at the present rate. Jobs go out in
    the order of import, those of every batch. Those of stuck workunits don't go out."""
    stuck = {one.name for one in stuck_in(tables)}
    waiting = sum(count for name, count in tables.rows(QUEUED) if name not in stuck)
    if not waiting:
        return None
    now = progress_of(tables, None)
    begin = begun(now, earlier(project.units().copies, now, None))
    do = "waits, and goes out first" if waiting == 1 else "wait, and go out first"
    text = f"before     {count_text(waiting, 'job')} of other batches {do}"
    ended = 0 if begin is None else now.ended - begin[1]
    if begin is None or not ended:
        return text
    # a workunit that ends takes as many jobs as one that waits, as far as anybody knows
    seconds = (now.waiting + now.out - len(stuck)) * max(1, now.moment - begin[0]) // ended
    return f"{text}: {span_text(seconds)} at the present rate"


def sum_lines(plan: Plan, left: list[tuple[Input, Path]], missing: list[Batch], room: int) -> Iterator[str]:
    """Yields what a batch is, with its first workunits and its sums."""
    count, amounts = len(plan.inputs), plan.amounts
    instances = count * amounts.quorum
    yield f"batch {plan.batch} of the application {plan.app.name}: {count_text(count, 'workunit')}"
    for one in plan.inputs[:SHOWN_WORKUNITS]:
        size = f" ({bytes_text(one.nbytes)})" if one.path is not None else ""
        yield f"  {one.workunit}: {one.shown}{size}"
    if count > SHOWN_WORKUNITS:
        yield f"  .. and {count - SHOWN_WORKUNITS:,} more"
    yield f"instances  {instances:,}: {count_text(amounts.quorum, 'result')} of each workunit must agree"
    yield f"errors     {errors_text(amounts.errors)}"
    yield f"hours      {instances * amounts.hours:,.4g} of a processor, {amounts.hours:g} for each instance"
    yield f"credit     {instances * amounts.credit:,.6g}, {amounts.credit:g} for each result"
    factor = plan.app.bounds.factor
    limit = factor * amounts.hours
    yield f"limit      a job is ended after {factor:,} times its hours, {limit:,.4g} on a usual PC"
    size = bytes_text(sum(one.nbytes for one in plan.inputs))
    yield f"inputs     {size}, {len(left):,} of {count:,} to be staged"
    needed = sum(len(batch.rows) for batch in missing)
    yield f"room       {room - needed:,} of {MOST['unit']:,} workunits are left afterwards"


def submit_work(project: Project, plan: Plan, is_dry: bool, is_linked: bool) -> Iterator[str]:
    """Makes a batch of work, and yields what is done. Nothing is changed before all is checked."""
    check_record(project, plan)
    with tables_of(project) as (look, tables):
        check_importing(project, look)
        missing, room = missing_batches(plan, tables), room_of(tables)
        queue = queue_line(project, tables) if missing else None
        waiting = waiting_of(tables, {one.workunit for one in plan.inputs}) if plan.slice_size else 0
    check_room(missing, room)
    left = unstaged(plan)
    yield from sum_lines(plan, left, missing, room)
    if queue is not None:
        yield queue
    if is_dry:
        yield "nothing was changed: --dry-run"
        return
    write_record(project, plan)
    stage_all(project, plan, left, is_linked)
    done = import_all(project, plan.batch, next_batches(missing, waiting, plan.slice_size))
    later = sum(len(batch.rows) for batch in missing) - done
    before = len(plan.inputs) - done - later
    yield f"imported   {done:,} workunits" + (f", and {before:,} were there before" if before else "")
    if later:
        timer = f"bsched-feed@{project.name}.timer"
        yield f"later      {later:,} as jobs go out, by {timer} or `bsched-tools feed`"
