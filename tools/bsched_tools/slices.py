"""Batches of work that are imported a slice at a time, as their jobs go out.

Jobs go out in the order of import, so a large batch would keep later ones waiting until its last job is out.
The record of a batch has the size of its slices, and the tables say which of its imports were taken. So
nothing else is kept, and after any stop the next run continues.
"""
from collections.abc import Iterator
from pathlib import Path
from typing import Any

from bsched_files.tables import Tables

from .amounts import count_text
from .project_access import check_importing, tables_of, turn_of
from .projects import Project
from .submitting import (
    batches_by,
    check_room,
    import_all,
    missing_among,
    next_batches,
    read_record,
    room_of,
    waiting_of,
)


def sliced_records(project: Project, batch: str | None = None) -> Iterator[tuple[Path, dict[str, Any]]]:
    """Yields the records of the batches that are imported in slices."""
    for path in sorted((project.folder / "submitted").glob("*.json")):
        if batch in (None, path.stem) and isinstance((record := read_record(path)).get("slice"), int):
            yield path, record


def names_of(record: dict[str, Any]) -> list[str]:
    """Returns the workunits of a record."""
    return [str(one[0]) for one in record["inputs"]]


def left_in(project: Project, tables: Tables, batch: str | None) -> int:
    """Returns how many workunits of a batch, or of all, are not imported yet."""
    left = 0
    for _, record in sliced_records(project, batch):
        names = set(names_of(record))
        left += len(names) - sum(name in names for name, in tables.rows("SELECT name FROM unit"))
    return left


def feed(project: Project) -> Iterator[str]:
    """Imports what is due of each batch, and yields what was done."""
    with turn_of(project), tables_of(project) as (look, tables):
        is_checked = False
        for path, record in sliced_records(project):
            name, names, size = path.stem, names_of(record), int(record["slice"])
            front = [str(record["app"]), *map(str, record["columns"])]
            missing = missing_among(name, batches_by(name, names, front, size), tables)
            due = next_batches(missing, waiting_of(tables, set(names)), size) if missing else []
            if not due:
                continue
            if not is_checked:
                check_importing(project, look)
                is_checked = True
            check_room(due, room_of(tables))
            done = import_all(project, name, due)
            left = sum(len(batch.rows) for batch in missing) - done
            yield f"{name}: {count_text(done, 'workunit')} imported, {left:,} are left"
