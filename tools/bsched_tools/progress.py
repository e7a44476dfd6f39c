"""How far the work is: of one batch, or of all."""
from collections import Counter
from collections.abc import Iterator
from dataclasses import dataclass, field
from pathlib import Path

from bsched_files.copies import copies_in, moment_of
from bsched_files.faults import Fault
from bsched_files.moments import DAY, HOUR, moment_text
from bsched_files.tables import Tables, opened
from bsched_files.workunits import IS_HELD, OPEN, REASONS

from .amounts import count_text
from .computers import BadComputer, bad_computers
from .computers import named as named_computers
from .stuck import Stuck, named, stuck_in
from .texts import main_line

LEAST_SECONDS = 60  # between two copies from which a rate follows
MOST_SHOWN = 3
STATES = f"""
SELECT unit.name, status, EXISTS (SELECT 1 FROM instance WHERE unit_id = unit.id AND {IS_HELD}),
  (SELECT min(sent) FROM instance WHERE unit_id = unit.id)
FROM unit
"""
ALL_ERRORS = """
SELECT unit.name, host.id, shown_name(auth, account.name)
FROM instance JOIN unit ON unit.id = unit_id JOIN host ON host.id = host_id
  JOIN account ON account.id = account_id
WHERE outcome = 3
"""
ERRORS = """
SELECT unit.name, output FROM unit JOIN instance ON unit_id = unit.id
WHERE outcome = 3 AND status NOT IN (0, 1)
"""


@dataclass(slots=True)
class Progress:
    """How many workunits there are in each state."""

    moment: int
    waiting: int = 0
    out: int = 0  # at least one computer has it
    done: int = 0
    failed: Counter[str] = field(default_factory=Counter)  # by reason
    errors: Counter[str] = field(default_factory=Counter)  # what clients said about workunits that failed
    first_sent: int | None = None  # when the first instance of all these was sent

    @property
    def all(self) -> int:
        """All workunits."""
        return self.waiting + self.out + self.ended

    @property
    def ended(self) -> int:
        """Workunits that are done or have failed."""
        return self.done + self.failed.total()


def names_in_batch(tables: Tables, batch: str) -> set[str]:
    """Returns the names of the workunits of a batch: of the import that has its name, or of those that have
    its name with a number after it.
    """
    query = "SELECT name, text FROM batch WHERE kind = 'workunits' AND substr(name, 1, ?1) = ?2"
    texts: dict[str, str] = {}
    for name, text in tables.rows(query, len(batch), batch):
        end = name[len(batch) :]
        if not end or end[0] == "-" and end[1:].isdecimal():
            texts[name] = bytes(text).decode()
    if not texts:
        raise Fault(f"--batch {batch}: there is no batch with this name")
    chosen = [texts[batch]] if batch in texts else texts.values()
    rows = (line for text in chosen for line in text.splitlines()[1:] if line)
    return {row.partition(",")[0].strip('"') for row in rows}


def progress_of(tables: Tables, names: set[str] | None) -> Progress:
    """Returns the progress of workunits with these names, or of all."""
    progress = Progress(tables.moment)
    for name, status, is_out, sent in tables.rows(STATES):
        if names is not None and name not in names:
            continue
        if sent is not None:
            progress.first_sent = min(sent, progress.first_sent or sent)
        if status in REASONS:
            progress.failed[REASONS[status]] += 1
        elif status != OPEN:
            progress.done += 1
        elif is_out:
            progress.out += 1
        else:
            progress.waiting += 1
    if progress.failed:
        for name, output in tables.rows(ERRORS):
            if names is None or name in names:
                progress.errors[main_line(output or "")] += 1
    return progress


def earlier(folder: Path, now: Progress, names: set[str] | None) -> Progress | None:
    """Returns the progress in the oldest copy of the last day, or None if there is none."""
    try:
        copies = copies_in(folder)
    except OSError:
        return None
    recent = [path for path in copies if LEAST_SECONDS <= now.moment - moment_of(path) <= DAY + HOUR]
    for path in reversed(recent):
        try:
            with opened(path) as tables:
                return progress_of(tables, names)
        except Fault:
            continue
    return None


@dataclass(frozen=True, slots=True)
class Trouble:
    """What keeps the work from its end."""

    stuck: list[Stuck]
    errors: int  # client errors
    worst: str  # the computer with the most of them
    worst_errors: int
    computers: list[BadComputer]  # of the whole project

    @property
    def lines(self) -> Iterator[str]:
        """The trouble for a person."""
        if self.errors:
            yield f"errors   {self.errors:,}, {self.worst_errors:,} of them by {self.worst}"
        if self.computers:
            yield f"bad      in the last day: {named_computers(self.computers)}"
        if self.stuck:
            yield f"stuck    {len(self.stuck):,}: {named(self.stuck)}"


def trouble_in(tables: Tables, names: set[str] | None) -> Trouble:
    """Returns what keeps workunits with these names, or all, from their end."""
    errors: Counter[str] = Counter()
    for name, host, user in tables.rows(ALL_ERRORS):
        if names is None or name in names:
            errors[f"computer {host} of {user}"] += 1
    worst, count = errors.most_common(1)[0] if errors else ("", 0)
    return Trouble(list(stuck_in(tables, names)), errors.total(), worst, count, bad_computers(tables))


def span_text(seconds: int) -> str:
    """Returns a time for a person."""
    if seconds < HOUR:
        return count_text(round(seconds / 60), "minute")
    return f"{seconds / HOUR:.1f} hours"


def begun(now: Progress, before: Progress | None) -> tuple[int, int] | None:
    """Returns the moment from which a rate counts, and how many had ended then: that of an earlier copy, but
    not before the first job went out. Returns None if there is neither of the last day."""
    if now.first_sent is None:
        return None
    if before is not None and now.first_sent <= before.moment and before.ended <= now.ended:
        return before.moment, before.ended
    return (now.first_sent, 0) if now.moment - now.first_sent <= DAY + HOUR else None


def rate_lines(now: Progress, before: Progress | None, stuck: int, later: int = 0) -> Iterator[str]:
    """Yields the rate, and when the work may end. Nothing is foretold of what is stuck. Some workunits are
    imported later."""
    begin = begun(now, before)
    if begin is None:
        why = "there is no copy of the last day; bsched-copy@ makes one each hour"
        yield f"rate     unknown: {why if now.first_sent is not None else 'no job went out yet'}"
        return
    seconds, count = now.moment - begin[0], now.ended - begin[1]
    if seconds < LEAST_SECONDS:
        yield f"rate     unknown yet: the first job went out {count_text(max(0, seconds), 'second')} ago"
        return
    yield f"rate     {count_text(count, 'workunit')} in {span_text(seconds)}"
    left = now.waiting + now.out + later - stuck
    if left > 0 and count:
        of = " without what is stuck" if stuck else ""
        moment = moment_text(now.moment + left * seconds // count)[:16]
        yield f"end      may be at {moment} UTC, at this rate{of}"


def progress_lines(now: Progress, before: Progress | None, trouble: Trouble, later: int) -> Iterator[str]:
    """Yields the progress for a person. Some workunits are not imported yet."""
    yield f"waiting  {now.waiting:,}"
    yield f"out      {now.out:,}"
    yield f"done     {now.done:,} of {now.all:,}"
    reasons = ", ".join(f"{count:,} with too many {reason}" for reason, count in now.failed.most_common())
    yield f"failed   {now.failed.total():,}" + (f": {reasons}" if reasons else "")
    for text, count in now.errors.most_common(MOST_SHOWN):
        yield f"  {count_text(count, 'result')} said: {text}"
    if later:
        yield f"later    {later:,} are not imported yet (--slice)"
    yield from trouble.lines
    yield from rate_lines(now, before, len(trouble.stuck), later)
