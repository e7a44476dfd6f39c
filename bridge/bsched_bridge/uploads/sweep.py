"""The sweep of the folder of uploads, which a timer starts each day while the bridge serves.

It deletes what nobody will ask for: uploads that were never reported or whose result is an error, those of
barred accounts, jobs that never came back, and the files of results that are not canonical. It works in turns
with the bridge, a part at a time.

A file in store/ is deleted only if copies of the tables say of each result with this content that its
workunit is done or has failed, and that it is not the canonical result. It also stays if a canonical output
names it. A workunit that is done never gets another canonical result, so the copies may be of any age. A
result whose job went out once more after its report, and never came back, does not count: bsched has not
heard of that report.
"""
import re
import sqlite3
from collections.abc import Iterable, Set
from dataclasses import dataclass, field
from typing import TypeVar

from bsched_files.file_names import FIRST, result_in_file, workunit_in_file, workunit_of_result
from bsched_files.moments import DAY

from .store import UploadStore

ENDED_DAYS = 1  # for which an operator can look at files that nobody needs
LEFT_DAYS = 120  # after which no result comes any more: a client gives up an upload after 90 days
PART = 200  # rows of a turn; an upload may have to wait for it
PAGE = 10_000  # rows that are read at once
DIGEST = re.compile(r"sha256:([0-9a-f]{64})\b")
Item = TypeVar("Item")


@dataclass(slots=True)
class Decisions:
    """The workunits that are done or have failed, by copies of the tables. The names are those by which
    clients know them, as in the uploads.
    """

    canonical: dict[str, str | None] = field(default_factory=dict)  # the name of each one's canonical result
    contents: set[str] = field(default_factory=set)  # the SHA-256 that canonical outputs name

    def add(self, workunit: str, canonical: str | None, output: str | None, file: int = FIRST) -> None:
        """Adds a workunit of a file with the name and the output of its canonical result. The names are those
        in the tables.
        """
        result = None if canonical is None else result_in_file(canonical, file)
        self.canonical[workunit_in_file(workunit, file)] = result
        self.contents.update(DIGEST.findall(output or ""))

    def may_go(self, result: str) -> bool:
        """Returns whether a result can never become canonical."""
        workunit = workunit_of_result(result)
        return workunit in self.canonical and self.canonical[workunit] != result


@dataclass(slots=True)
class Swept:
    """What a sweep deleted."""

    uploads: int = 0  # files in pending/
    jobs: int = 0  # that never came back
    results: int = 0  # that are not canonical
    contents: int = 0  # files in store/
    nbytes: int = 0  # in all these files


def parts_of(items: list[Item], size: int) -> Iterable[list[Item]]:
    """Yields a list in parts."""
    for start in range(0, len(items), size):
        yield items[start:][:size]


def sweep(store: UploadStore, now: int, decisions: Decisions | None, barred: Set[str] = frozenset()) -> Swept:
    """Deletes what is old, and the uploads of barred accounts. Without decisions all reported results keep
    their files.
    """
    swept = Swept(uploads=store.delete_left_over())
    sweep_uploads(store, now, barred, swept)
    sweep_jobs(store, now, decisions.contents if decisions is not None else set(), swept)
    if decisions is not None:
        sweep_results(store, now - store.settings.keep_days * DAY, decisions, swept)
    count, nbytes = store.delete_unknown(now - ENDED_DAYS * DAY)
    swept.contents, swept.nbytes = swept.contents + count, swept.nbytes + nbytes
    return swept


def sweep_uploads(store: UploadStore, now: int, barred: Set[str], swept: Swept) -> None:
    """Deletes uploads whose result was never reported, and those of a day ago that nobody needs: their result
    was reported, as an error mostly, or their account is barred.
    """
    recent, late = now - ENDED_DAYS * DAY, now - LEFT_DAYS * DAY
    old = store.uploads("received_at < ? OR coalesce(stored_at, ended_at) < ?", late, recent)
    for authenticator in barred:
        old += store.uploads("upload.authenticator = ?", authenticator)
    for part in parts_of(old, PART):
        count, nbytes = store.delete_uploads(part, recent)
        swept.uploads, swept.nbytes = swept.uploads + count, swept.nbytes + nbytes


def sweep_jobs(store: UploadStore, now: int, kept: Set[str], swept: Swept) -> None:
    """Deletes jobs that went out and never came back. Such a job may have files: it came back before, and
    bsched did not hear of it, so the job went out once more.
    """
    gone = PART
    while gone == PART:
        with store.tables.transaction() as connection:
            rows = connection.execute(
                "DELETE FROM job WHERE rowid IN "
                "(SELECT rowid FROM job WHERE stored_at IS NULL AND deadline < ? LIMIT ?) RETURNING result",
                (now - LEFT_DAYS * DAY, PART),
            ).fetchall()
            forget_results(store, connection, [str(row[0]) for row in rows], kept, swept)
        gone = len(rows)
        swept.jobs += gone


def sweep_results(store: UploadStore, before: int, decisions: Decisions, swept: Swept) -> None:
    """Deletes the files of results that were stored before a moment and can't become canonical."""
    last = ""
    while True:
        rows = store.tables.rows(
            "SELECT result FROM job WHERE stored_at < ? AND result > ? ORDER BY result LIMIT ?",
            before,
            last,
            PAGE,
        )
        if not rows:
            return
        last = str(rows[-1][0])
        old = [str(row[0]) for row in rows if decisions.may_go(str(row[0]))]
        for part in parts_of(old, PART):
            with store.tables.transaction() as connection:
                query = "DELETE FROM job WHERE result = ? AND stored_at < ?"  # it may have gone out once more
                gone = [one for one in part if connection.execute(query, (one, before)).rowcount]
                forget_results(store, connection, gone, decisions.contents, swept)
                swept.results += len(gone)


def forget_results(
    store: UploadStore, connection: sqlite3.Connection, results: list[str], kept: Set[str], swept: Swept
) -> None:
    """Deletes the files of results whose jobs are gone, and the contents that no other result has, within a
    transaction. Some contents are kept. After a stop the next sweep does the same.
    """
    contents: dict[str, int] = {}
    for result in results:
        contents |= store.forget_files(connection, result)
    deleted = store.delete_unused(connection, contents.keys() - kept)
    swept.contents += len(deleted)
    swept.nbytes += sum(contents[one] for one in deleted)
