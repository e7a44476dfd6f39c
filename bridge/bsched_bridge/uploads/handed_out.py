"""The jobs that went out, with their output files, and what bsched gets of their reports."""
import sqlite3
from collections.abc import Iterable, Sequence
from dataclasses import dataclass
from typing import cast

from bsched_files.catalogue import OutputFile

from ..catalogue.output_files import as_text, of_text
from ..people.hosts import Key
from .tables import UploadTables


@dataclass(frozen=True, slots=True)
class Outcome:
    """What bsched gets of a report: its exit status and its output."""

    exit_status: int
    output: str


@dataclass(frozen=True, slots=True)
class HandedJob:
    """A job that went out."""

    result: str
    key: Key  # of the host that has it
    app: str
    files: tuple[OutputFile, ...]  # as the catalogue had them when it went out
    deadline: int
    is_stored: bool = False  # its files are stored: a report of a success came
    outcome: Outcome | None = None  # of that report, by a digest program
    is_ended: bool = False  # bsched has a report of it, and its files are not stored

    @property
    def most_nbytes(self) -> int:
        """How many bytes its files may have."""
        return sum(file.max_nbytes for file in self.files)


class HandedOut:
    """The jobs that went out."""

    def __init__(self, tables: UploadTables) -> None:
        self.tables = tables

    def add(self, jobs: Iterable[HandedJob]) -> None:
        """Notes jobs before they go out. A job that went out before is computed anew, so an earlier report of
        it no longer counts. All is on the disk when it returns.
        """
        with self.tables.transaction() as connection:
            for job in jobs:
                connection.execute(
                    "INSERT OR REPLACE INTO job (result, authenticator, host_cpid, listing, deadline, "
                    "has_url) VALUES (?, ?, ?, ?, ?, 1)",
                    (
                        job.result,
                        job.key.authenticator,
                        job.key.host_cpid,
                        listing_of(connection, job),
                        job.deadline,
                    ),
                )

    def end(self, results: Iterable[str], now: int) -> None:
        """Notes results whose reports bsched has. If a report did not have its files stored, it was one of an
        error, and nobody needs them. A power failure may undo it.
        """
        query = (
            "SELECT 1 FROM job JOIN listing ON listing.id = listing WHERE result = ? AND files != '[]' "
            "AND stored_at IS NULL AND ended_at IS NULL"
        )
        ended = [result for result in results if self.tables.row(query, result) is not None]
        if ended:
            with self.tables.transaction(is_synced=False) as connection:
                for result in ended:
                    connection.execute("UPDATE job SET ended_at = ? WHERE result = ?", (now, result))

    def has_without_url(self) -> bool:
        """Returns whether a job is out whose client has no URLs with tokens: an older bridge gave it out."""
        row = self.tables.row(
            "SELECT 1 FROM listing WHERE files != '[]' AND EXISTS (SELECT 1 FROM job "
            "WHERE listing = listing.id AND has_url = 0 AND stored_at IS NULL AND ended_at IS NULL) LIMIT 1"
        )
        return row is not None

    def most_nbytes(self, key: Key) -> int:
        """Returns how many bytes the files of all jobs may have that a host has not reported."""
        rows = self.tables.rows(
            "SELECT count(*), files FROM job JOIN listing ON listing.id = listing WHERE authenticator = ? "
            "AND host_cpid = ? AND stored_at IS NULL AND ended_at IS NULL GROUP BY listing",
            key.authenticator,
            key.host_cpid,
        )
        return sum_of_most(rows)

    def coming_nbytes(self, now: int) -> int:
        """Returns how many bytes the files of all jobs may have that are out and may still be in time."""
        rows = self.tables.rows(
            "SELECT count(*), files FROM job JOIN listing ON listing.id = listing "
            "WHERE stored_at IS NULL AND ended_at IS NULL AND deadline >= ? GROUP BY listing",
            now,
        )
        return sum_of_most(rows)

    def set_outcome(self, result: str, outcome: Outcome) -> None:
        """Notes what a digest program said of a report, whose files are stored."""
        with self.tables.transaction() as connection:
            connection.execute(
                "UPDATE job SET exit_status = ?, output = ? WHERE result = ? AND stored_at IS NOT NULL",
                (outcome.exit_status, outcome.output, result),
            )

    def job(self, result: str) -> HandedJob | None:
        """Returns the job with the name of a result."""
        row = self.tables.row(
            "SELECT authenticator, host_cpid, app, files, deadline, stored_at, exit_status, output, ended_at "
            "FROM job JOIN listing ON listing.id = listing WHERE result = ?",
            result,
        )
        if row is None:
            return None
        authenticator, host_cpid, app, files = map(str, row[:4])
        outcome = None if row[7] is None else Outcome(cast(int, row[6]), str(row[7]))
        deadline, is_stored = cast(int, row[4]), row[5] is not None
        key, is_ended = Key(authenticator, host_cpid), row[8] is not None
        return HandedJob(result, key, app, of_text(files), deadline, is_stored, outcome, is_ended)


def sum_of_most(rows: Iterable[Sequence[object]]) -> int:
    """Returns how many bytes the files of jobs may have. A row has how many jobs share a list of files."""
    return sum(
        cast(int, count) * sum(file.max_nbytes for file in of_text(str(files))) for count, files in rows
    )


def listing_of(connection: sqlite3.Connection, job: HandedJob) -> int:
    """Returns the number of a job's list of output files. Most jobs of an application share one."""
    values = job.app, as_text(job.files)
    row = connection.execute("SELECT id FROM listing WHERE app = ? AND files = ?", values).fetchone()
    if row is not None:
        return cast(int, row[0])
    return cast(int, connection.execute("INSERT INTO listing (app, files) VALUES (?, ?)", values).lastrowid)
