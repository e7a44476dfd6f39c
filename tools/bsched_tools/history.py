"""What earlier reports counted, in a small file. Each report appends a line to it.

A second file has the last report's line, too, and which instances were held then. It is written first, by one
rename. If a stop comes before the line is appended, the next report appends it. So each result counts once.
"""
import json
from dataclasses import asdict, dataclass, field
from pathlib import Path
from typing import Any

from bsched_files.atomic import append_line, replace_file
from bsched_files.counts import Counts
from bsched_files.moments import HOUR
from bsched_files.tables import Tables
from bsched_files.workunits import IS_HELD


# the bins of turnaround: up to this many hours
TURNAROUND_HOURS = (1, 6, 24, 72, 168, 336)
BINS = len(TURNAROUND_HOURS) + 1
HELD = f"SELECT unit_id, num FROM instance WHERE {IS_HELD}"
REPORTED = """
SELECT unit_id, num, sent FROM instance
WHERE host_id IS NOT NULL AND outcome IS NOT NULL AND lapse = 0
"""


@dataclass(frozen=True, slots=True)
class Entry:
    """What one report counted."""

    moment: int
    workunits: dict[str, int]
    instances: dict[str, int]
    people: dict[str, int]
    millicredits: int
    bytes: int
    # of results that were reported since the last report, by bin
    turnaround: list[int] = field(default_factory=lambda: [0] * BINS)


def entry_of(line: str) -> Entry | None:
    """Returns the entry in a line, or None if a stop left the line half written."""
    try:
        fields = json.loads(line)
        return Entry(**fields)
    except (ValueError, KeyError, TypeError):
        return None


def bin_of(seconds: int) -> int:
    """Returns the bin of turnaround for a number of seconds."""
    return next((at for at, hours in enumerate(TURNAROUND_HOURS) if seconds <= hours * HOUR), BINS - 1)


class History:
    """The history file, and which instances were held at the last report."""

    def __init__(self, folder: Path) -> None:
        self.path, self.held_path = folder / "history.jsonl", folder / "held.json"
        self.entries: list[Entry] = []
        if self.path.exists():
            found = (entry_of(line) for line in self.path.read_text(errors="replace").splitlines())
            self.entries = [entry for entry in found if entry is not None]

    def _finish(self) -> None:
        """Appends the line of the last report, if a stop came before that."""
        try:
            last = entry_of(json.dumps(json.loads(self.held_path.read_text())["entry"]))
        except (OSError, ValueError, KeyError, TypeError):
            return
        if last is not None and (not self.entries or self.entries[-1].moment < last.moment):
            self._append(last)

    def _append(self, entry: Entry) -> None:
        """Appends the line of a report."""
        append_line(self.path, json.dumps(asdict(entry)).encode())
        self.entries.append(entry)

    def held_before(self) -> tuple[int, set[str]] | None:
        """Returns when the last report was, and which instances were held then."""
        try:
            fields: dict[str, Any] = json.loads(self.held_path.read_text())
            return int(fields["moment"]), set(fields["held"])
        except (OSError, ValueError, KeyError, TypeError):
            return None

    def turnaround(self, tables: Tables) -> list[int]:
        """Returns how long results took at most that were reported since the last report. The tables do not
        say when a result was reported. It was between the last copy and this one."""
        counted = [0] * BINS
        before = self.held_before()
        if before is not None:
            moment, held = before
            for unit, num, sent in tables.rows(REPORTED):
                if sent > moment or f"{unit}.{num}" in held:
                    counted[bin_of(tables.moment - sent)] += 1
        return counted

    def add(self, tables: Tables, counts: Counts) -> None:
        """Appends what a report counted. A second report over one copy adds nothing."""
        self._finish()
        if self.entries and tables.moment <= self.entries[-1].moment:
            return
        entry = Entry(
            tables.moment,
            dict(counts.workunits),
            dict(counts.instances),
            counts.people,
            counts.millicredits,
            counts.bytes,
            self.turnaround(tables),
        )
        held = [f"{unit}.{num}" for unit, num in tables.rows(HELD)]
        fields = {"moment": tables.moment, "held": held, "entry": asdict(entry)}
        replace_file(self.held_path, [json.dumps(fields).encode()])
        self._append(entry)
