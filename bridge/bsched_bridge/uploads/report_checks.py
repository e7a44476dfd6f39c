"""The files of reported results: each report of a success is checked before bsched gets it.

A client that gave up an upload, or a false one, reports a success without its files. bsched gets such a
report as an error, and lets another host do the work. The files of a good report are stored first. So each
success that bsched has acknowledged has its files. What bsched gets of a report is kept, so a report that
comes again says the same.
"""
import csv
import logging
import sqlite3
import time
from collections.abc import Callable
from dataclasses import dataclass, field, replace
from functools import cached_property

from bsched_files.catalogue import OutputFile
from bsched_files.texts import MOST_OUTPUT, cut_to_bytes
from bsched_files.uploads import compared_text

from ..catalogue.contents import Catalogue
from ..catalogue.output_files import upload_name
from ..people.hosts import Hosts, Key
from ..people.measurements import PutOffs, WhyPutOff
from ..requests.calls import MOST_REPORTS
from ..requests.client_requests import UPLOAD_STATUS, ClientRequest, Report, ReportedFile
from ..scheduler.messages import Job, NoAnswer, Scheduler
from .digest_queue import DigestQueue, DigestWaits
from .handed_out import HandedJob, HandedOut, Outcome
from .store import Upload, UploadStore

log = logging.getLogger(__name__)


class HostStatement:
    """The results of a host and their applications, as bsched says. It is asked once at most for a
    request.
    """

    def __init__(self, checks: "ReportChecks", key: Key) -> None:
        self.checks, self.key = checks, key

    @cached_property
    def apps(self) -> dict[str, str]:
        """The application of each result that the host has or had. Raises NoAnswer."""
        scheduler, hostid = self.checks.scheduler, self.checks.hosts.scheduler_hostid(self.key)
        if hostid is None or not scheduler.has_host(self.key.authenticator, self.key.host_cpid, hostid):
            return {}
        statement = scheduler.statement(hostid, self.checks.operator_key)
        if statement is None:
            raise NoAnswer("the statement of a host is refused")
        lines = csv.reader(statement.splitlines())
        return {line[0]: line[1] for line in lines if len(line) > 1}


class Incomplete(Exception):
    """Raised if a report lacks a file, or has one that was not uploaded. The text says which."""


@dataclass(frozen=True, slots=True)
class ReportChecks:
    """Checks the reports of a project whose applications have output files."""

    catalogue: Callable[[], Catalogue]  # returns the current one
    store: UploadStore
    jobs: HandedOut
    hosts: Hosts
    scheduler: Scheduler
    operator_key: str
    digests: DigestQueue
    put_offs: PutOffs = field(default_factory=PutOffs)

    def hand_out(self, key: Key, jobs: list[Job]) -> list[Job]:
        """Notes which jobs a reply has, before it goes out, and returns them. If that fails, for example on a
        full disk, it returns only those without output files.
        """
        apps = self.catalogue().apps
        handed = [
            HandedJob(job.name, key, job.app_name, apps[job.app_name].output_files, job.report_deadline)
            for job in jobs
            if job.app_name in apps
        ]
        try:
            if handed:
                self.jobs.add(handed)
        except (OSError, sqlite3.Error) as fault:
            log.error("%d jobs are not handed on now: %s", len(handed), fault)
            with_files = {job.result for job in handed if job.files}
            return [job for job in jobs if job.name not in with_files]
        return jobs

    def end(self, results: list[str]) -> None:
        """Notes results whose reports bsched has. If that fails, their files can still be uploaded."""
        try:
            self.jobs.end(results, int(time.time()))
        except (OSError, sqlite3.Error) as fault:
            log.error("%d results are not noted as reported: %s", len(results), fault)

    def check(self, key: Key, request: ClientRequest) -> ClientRequest:
        """Returns a request of a host with the reports that bsched gets. Those that can't be checked now, and
        those that are more than a call has room for, are listed as results that the client has, so they don't
        count as lost.
        """
        reports, put_off = [], [report.name for report in request.results[MOST_REPORTS:]]
        statement, faults = HostStatement(self, key), list[tuple[str, DigestWaits]]()
        for report in request.results[:MOST_REPORTS]:
            try:
                reports.append(self._checked(statement, report))
            except DigestWaits as waits:
                faults.append((report.name, waits))
            except (OSError, sqlite3.Error) as fault:
                faults.append((report.name, DigestWaits(WhyPutOff.STORAGE, str(fault))))
        self._note_put_off(faults)
        put_off += [name for name, _ in faults]
        other = None if request.other_results is None else (*request.other_results, *put_off)
        return replace(request, results=tuple(reports), other_results=other)

    def _note_put_off(self, faults: list[tuple[str, DigestWaits]]) -> None:
        """Counts the reports of a call that are put off, and logs a line for each kind of reason that is a
        fault, with the first report that has it.
        """
        kinds: dict[WhyPutOff, list[tuple[str, DigestWaits]]] = {}
        for name, waits in faults:
            self.put_offs.record(waits.why, str(waits))
            if waits.why is not WhyPutOff.DIGEST_WAITS:
                kinds.setdefault(waits.why, []).append((name, waits))
        for (name, waits), *others in kinds.values():
            more = f" (and {len(others)} more)" if others else ""
            log.error("the report of %r%s is put off: %s", name, more, waits)

    def _checked(self, statement: "HostStatement", report: Report) -> Report:
        """Returns what bsched gets of a report. Raises DigestWaits if a digest program did not run yet."""
        if report.exit_status != 0:
            return report
        job = self._job(statement, report.name)
        if job is None or not job.files:
            return report
        outcome = job.outcome or self._outcome(job, report)
        return Report(report.name, outcome.exit_status, outcome.output)

    def _job(self, statement: "HostStatement", result: str) -> HandedJob | None:
        """Returns the job of a host, or None if the host does not have it; bsched ignores such a report. If
        the bridge does not know that the host got the job, for example after the folder of uploads was
        restored, it asks bsched.
        """
        job = self.jobs.job(result)
        if job is not None and job.key == statement.key:
            return job
        app = self.catalogue().apps.get(statement.apps.get(result, ""))
        if app is None:
            return None
        job = HandedJob(result, statement.key, app.name, app.output_files, int(time.time()))
        self.jobs.add([job])
        return job

    def _outcome(self, job: HandedJob, report: Report) -> Outcome:
        """Stores the files of a report, and returns what bsched gets of it. Raises DigestWaits."""
        if not job.is_stored:
            try:
                files = self._complete(job, {file.name: file for file in report.files})
            except Incomplete as fault:
                log.warning("the report of %s says success, and is an error: %s", job.result, fault)
                return Outcome(UPLOAD_STATUS, cut_to_bytes(str(fault), MOST_OUTPUT))
            try:
                self.store.store_files(job.result, files)
            except FileNotFoundError as fault:
                log.error("a file of %s was removed: %s", job.result, fault)
                return Outcome(UPLOAD_STATUS, "an output file was lost")
        app = self.catalogue().apps.get(job.app)
        if app is None or app.digest is None:
            return Outcome(0, compared_text(job.files, self.store.stored_files(job.result)))
        raise self.digests.ask(job, app.digest)

    def _complete(self, job: HandedJob, reported: dict[str, ReportedFile]) -> list[tuple[OutputFile, Upload]]:
        """Returns the files of a report in the order of the catalogue. Each must have come as it is
        reported.
        """
        found = []
        for place, file in enumerate(job.files):
            name = upload_name(job.result, place)
            if name not in reported:
                if not file.is_optional:
                    raise Incomplete(f"output file {file.open_name} is not in the report")
                continue
            upload = self.store.upload(name)
            if upload is None:
                raise Incomplete(f"output file {file.open_name} was not uploaded")
            if (upload.nbytes, upload.md5) != (reported[name].nbytes, reported[name].md5):
                raise Incomplete(f"output file {file.open_name} is not the one that was uploaded")
            found.append((file, upload))
        return found
