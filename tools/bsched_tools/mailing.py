"""Mail about what changed in a project's health.

The file *units/health.json* keeps the levels that the last mail told, and the last try that failed. A failed
mail is tried again, after pauses that double, so a mailer that takes a mail and fails sends few of them.
"""
import json
import os
import subprocess
from collections.abc import Iterable
from contextlib import closing, suppress
from dataclasses import asdict, dataclass, field
from pathlib import Path
from typing import Any

from bsched_files.atomic import keep_file
from bsched_files.faults import Fault
from bsched_files.findings import Finding, Level, levels_of, worst_of
from bsched_files.moments import HOUR, moment_text

from .projects import Project

SENDMAIL = Path("/usr/sbin/sendmail")
SECONDS = 20.0  # for the mailer to take a mail
FORMAT = 2
PAUSE_SECONDS, MOST_PAUSE = 300, 6 * HOUR  # after a failed try; each further one doubles it
MOST_TRIES = 1000  # that are counted
MOST_TEXT = 300  # characters of what a mailer says
Levels = dict[str, str]


@dataclass(frozen=True, slots=True)
class Failure:
    """Tries of a mail that failed."""

    levels: Levels  # that the mail tells
    moment: int  # of the last try
    tries: int
    text: str  # why it failed

    @property
    def next_try(self) -> int:
        """The moment from which on the mail is tried again."""
        return self.moment + min(PAUSE_SECONDS << min(self.tries - 1, 20), MOST_PAUSE)

    @property
    def finding(self) -> Finding:
        """The failure as a finding."""
        times = (
            f"tried at {moment_text(self.moment)[11:16]}, again from {moment_text(self.next_try)[11:16]} UTC"
        )
        return Finding("mail", Level.CRITICAL, f"{self.text} ({times})")


@dataclass(slots=True)
class Kept:
    """What is kept from one run to the next."""

    mailed: Levels = field(default_factory=dict)
    failure: Failure | None = None

    @property
    def data(self) -> bytes:
        """The bytes of the file."""
        failure = None if self.failure is None else asdict(self.failure)
        return json.dumps({"format": FORMAT, "mailed": self.mailed, "failure": failure}).encode()


def levels_in(fields: Any) -> Levels:
    """Returns the levels among the fields of a file."""
    return {str(name): str(level) for name, level in dict(fields).items()}


def read_kept(path: Path) -> Kept:
    """Reads what is kept. A file of the first format has the levels alone. Without a file, or with one that
    can't be read, all was good."""
    try:
        fields = json.loads(path.read_text())
        if "format" not in fields:
            return Kept(levels_in(fields))
        if fields["format"] != FORMAT:
            return Kept()
        failed = fields["failure"]
        if failed is None:
            return Kept(levels_in(fields["mailed"]))
        failure = Failure(
            levels_in(failed["levels"]), int(failed["moment"]), int(failed["tries"]), str(failed["text"])
        )
        return Kept(levels_in(fields["mailed"]), failure)
    except (OSError, ValueError, KeyError, TypeError, AttributeError):
        return Kept()


def is_same(one: Levels, other: Levels) -> bool:
    """Returns whether two runs found the same. A check that is missing was good."""
    return all(one.get(name, "GOOD") == other.get(name, "GOOD") for name in {*one, *other})


def mail_changes(project: Project, found: list[Finding], to: str, now: int) -> Finding | None:
    """Sends a mail if a level changed since the last mail. Returns what is wrong with the mail, or None. The
    levels are kept after the mailer has taken the mail. So a change is never lost, and after a stop may come
    twice."""
    levels = levels_of(found)
    path = project.work / "health.json"
    with suppress(Fault):  # what can't be kept is said after the mail
        project.made(project.work, 0o700)
    kept = read_kept(path)
    failure = kept.failure
    if is_same(levels, kept.mailed):
        return None if failure is None else keep(path, Kept(kept.mailed))
    is_known = failure is not None and is_same(levels, failure.levels)
    if failure is not None and is_known and failure.moment <= now < failure.next_try:
        return failure.finding
    try:
        send(f"{project.name}: {worst_of(found).name.lower()}", [one.line for one in found], to)
    except Fault as fault:
        tries = min(failure.tries + 1, MOST_TRIES) if failure is not None and is_known else 1
        kept.failure = Failure(levels, now, tries, str(fault))
        keep(path, kept)
        return kept.failure.finding
    return keep(path, Kept(levels))


def keep(path: Path, kept: Kept) -> Finding | None:
    """Writes what is kept. Returns what it means if it can't be written, or None."""
    try:
        keep_file(path, kept.data, 0o600)
    except (Fault, OSError) as fault:
        return Finding("mail", Level.CRITICAL, f"{fault}: so the next run sends the same mail again")
    return None


def send(subject: str, lines: Iterable[str], to: str) -> None:
    """Hands a mail to the system's mailer. Memory has the mail and what the mailer says: the disk may be
    full, and a process that the mailer leaves in the background may keep a pipe open."""
    if "\n" in to or not to.strip():
        raise Fault(f"{to!r} is no address for mail")
    text = "\n".join([f"To: {to}", f"Subject: [bsched] {subject}", "", *lines, ""])
    with closing(open(os.memfd_create("mail"), "w+b")) as mail, closing(
        open(os.memfd_create("said"), "w+b")
    ) as said:
        mail.write(text.encode())
        mail.seek(0)
        status = run_mailer(mail.fileno(), said.fileno())
        if status:
            said.seek(0)
            words = " ".join(said.read(4 * MOST_TEXT).decode(errors="replace").split())[:MOST_TEXT]
            raise Fault(f"{SENDMAIL}: status {status}: {words or 'it says nothing'}")


def run_mailer(mail: int, said: int) -> int:
    """Runs the mailer, and returns its status. Its processes are killed if it takes too long."""
    command = [str(SENDMAIL), "-t"]
    try:
        mailer = subprocess.Popen(
            command, stdin=mail, stdout=subprocess.DEVNULL, stderr=said, start_new_session=True
        )
    except OSError as error:
        advice = "install a mailer, such as postfix or msmtp-mta"
        raise Fault(f"{SENDMAIL}: {error.strerror}: {advice}") from None
    try:
        return mailer.wait(SECONDS)
    except subprocess.TimeoutExpired:
        raise Fault(f"{SENDMAIL}: it did not take the mail within {SECONDS:g} seconds") from None
    finally:
        if mailer.poll() is None:
            os.killpg(mailer.pid, 9)
            mailer.wait()
