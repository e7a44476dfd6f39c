"""What happened to a workunit, and what a computer did, for the operator.

The tables keep of a report whether it was a success, and its output. If the program failed, the output is
what the client said about it: the end of the program's standard error, or why the client ended it.
"""
from collections.abc import Iterator
from dataclasses import dataclass
from typing import Any

from bsched_files.faults import Fault
from bsched_files.file_names import MARK, split_result, split_workunit, workunit_of_result
from bsched_files.moments import moment_text
from bsched_files.tables import Tables
from bsched_files.texts import credit_number
from bsched_files.workunits import DONE, OPEN, REASONS, SUCCESS, Instance, agree, canonical_of


LATE, DROPPED = 1, 2  # lapses
MOST_LISTED = 50
UNIT = """
SELECT unit.id, unit.name, app.name, agreement, min_quorum, unit.credit, status, marked, unit_mark.class
FROM unit JOIN app ON app.id = app_id JOIN unit_mark ON unit_id = unit.id WHERE unit.name = ?1
"""
ROWS = """
SELECT num, host_id, shown_name(auth, account.name), outcome, output, place, sent, deadline, lapse, queued
FROM instance LEFT JOIN host ON host.id = host_id LEFT JOIN account ON account.id = account_id
WHERE unit_id = ?1 ORDER BY num
"""
HOST = """
SELECT shown_name(auth, account.name), cpid, fpops, memory, disk, platforms, quota, held, host.credit
FROM host JOIN account ON account.id = account_id WHERE host.id = ?1
"""
OF_HOST = """
SELECT DISTINCT unit.name, unit_id, sent FROM instance JOIN unit ON unit.id = unit_id
WHERE host_id = ?1 ORDER BY sent DESC, unit_id DESC LIMIT ?2
"""


@dataclass(frozen=True, slots=True)
class Given:
    """An instance of a workunit, and what became of it."""

    instance: Instance
    sent: int | None
    deadline: int | None
    state: str

    @property
    def lines(self) -> list[str]:
        """The instance in lines: where it went, and what the host reported."""
        one = self.instance
        if one.host is None:
            return [f"{one.name}: {self.state}"]
        lines = [
            f"{one.name}: {self.state}; computer {one.host} of {one.user}, sent {moment_text(self.sent)}, "
            f"deadline {moment_text(self.deadline)}"
        ]
        if one.output is not None:
            what = "output" if one.outcome == SUCCESS else "the client says"
            text_lines = one.text.splitlines() or ["(nothing)"]
            lines += [f"  {what}: {text_lines[0]}", *(f"    {line}" for line in text_lines[1:])]
        return lines


def state_of(one: Instance, lapse: int, waits: str | None, status: int, verdict: bool | None) -> str:
    """Returns the state of an instance in words; `waits` says for what it waits, if it does."""
    if one.host is None:
        return waits or "not sent: the workunit is decided"
    if one.outcome is None:
        if lapse == LATE:
            return "late: its deadline passed without a report"
        return "lost: the computer does not have it any more" if lapse == DROPPED else "in work"
    if one.outcome != SUCCESS:
        return "client error"
    if one.place is None:
        return "a success that came too late to be compared"
    if verdict is not None:
        return "valid" if verdict else "invalid: its output does not agree with the accepted one"
    return "a success that waits for others" if status == OPEN else "a success of a failed workunit"


def given_of(tables: Tables, unit: tuple[Any, ...]) -> tuple[list[Given], Instance | None]:
    """Returns the instances of a workunit, and its canonical result."""
    number, name, _, agreement, min_quorum, _, status = unit[:7]
    rows = list(tables.rows(ROWS, number))
    instances = [Instance(f"{name}_{row[0]}", *row[1:6]) for row in rows]
    judged = [one for one in instances if one.place is not None and one.outcome == SUCCESS]
    good = sorted(judged, key=lambda one: one.place or 0)
    best = canonical_of(agreement, min_quorum, good) if status == DONE else None
    # no user gets two instances of one workunit
    waits = "waits for a computer" + (" of another user" if any(one.host for one in instances) else "")
    given = []
    for one, (*_, sent, deadline, lapse, queued) in zip(instances, rows):
        verdict = agree(agreement, best.text, one.text) if best is not None and one in judged else None
        state = state_of(one, lapse, waits if queued else None, status, verdict)
        given.append(Given(one, sent, deadline, state))
    return given, best


def workunits_meant(name: str, file: int) -> Iterator[str]:
    """Yields the workunits of a file that a name may mean. It can be the name of a workunit or of a result,
    in the tables or as clients know it.
    """
    workunit, result = split_workunit(name), split_result(name)
    if workunit is not None and (MARK not in name or workunit.file == file):
        yield workunit.name
    if result is not None and (MARK not in name or result.file == file):
        if result.name.rpartition("_")[2].isdecimal():
            yield workunit_of_result(result.name)


def workunit_lines(tables: Tables, name: str) -> Iterator[str]:
    """Yields what happened to a workunit. The name can be that of one of its results, and also the name by
    which clients know either. The lines have the names in the tables.
    """
    found = (next(tables.rows(UNIT, one), None) for one in workunits_meant(name, tables.file))
    unit = next((row for row in found if row is not None), None)
    if unit is None:
        raise Fault(f"{tables.path}: there is no workunit {name}")
    given, best = given_of(tables, unit)
    _, own, app, _, quorum, credit, status, marked, version_class = unit
    outcome = {OPEN: "open", DONE: "done"}.get(status) or f"failed: too many {REASONS.get(status, 'faults')}"
    yield f"workunit {own} of the application {app}: {outcome}"
    if marked:
        yield f"it keeps to one class of versions: {version_class or 'none yet'}"
    yield f"needs {quorum} successes, and gives {credit_number(credit)} credit for each valid result"
    if best is not None:
        yield f"accepted result: {best.name}"
    for one in given:
        yield from one.lines


def host_lines(tables: Tables, number: int) -> Iterator[str]:
    """Yields what a computer did: the results that it got last."""
    host = next(tables.rows(HOST, number), None)
    if host is None:
        raise Fault(f"{tables.path}: there is no computer {number}")
    user, cpid, fpops, memory, disk, platforms, quota, held, credit = host
    yield f"computer {number} of {user} ({cpid}): {credit_number(credit)} credit"
    speed = f"{fpops / 1e9:.2f} gigaflops for each processor"
    yield f"{speed}, {memory / 1e9:.1f} GB of memory, {disk / 1e9:.1f} GB of free disk"
    yield f"platforms: {platforms}"
    yield f"{held} jobs in work; at most {quota} a day"
    units = list(tables.rows(OF_HOST, number, MOST_LISTED))
    if len(units) == MOST_LISTED:
        yield f"the {MOST_LISTED} workunits that it got last:"
    for name, *_ in units:
        unit = next(tables.rows(UNIT, name))
        for one in given_of(tables, unit)[0]:
            if one.instance.host == number:
                yield from one.lines
