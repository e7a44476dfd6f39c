"""Access to a project that does not disturb it: who may use it, whether its scheduler answers, and a copy of
its tables that is taken for one look.
"""
import fcntl
import http.client
import os
from collections.abc import Iterator
from contextlib import ExitStack, contextmanager
from dataclasses import dataclass
from pathlib import Path

from bsched_files.copies import copies_in, found_copy, moment_of
from bsched_files.faults import Fault
from bsched_files.moments import moment_text
from bsched_files.tables import Tables, opened

from . import projects
from .copies.copying import copy_tables
from .copies.folder import work_folder
from .projects import NO_MEMBER, Project

ASK_SECONDS = 15.0


@dataclass(frozen=True, slots=True)
class Look:
    """A copy of the tables for one look."""

    path: Path
    is_fresh: bool  # taken now; else it is the newest copy
    is_served: bool  # whether a process has the tables; unknown of an older copy
    why_older: str = ""  # why no copy could be taken

    @property
    def moment_line(self) -> str:
        """Of when the copy is, for who reads it now."""
        return f"{self.as_of} (now)" if self.is_fresh else self.as_of

    @property
    def as_of(self) -> str:
        """Of when the copy is."""
        why = "" if self.is_fresh else f" (by the newest copy: {self.why_older})"
        return f"as of {moment_text(moment_of(self.path))} UTC{why}"


def check_member(project: Project) -> None:
    """Refuses users who are neither root nor in the group of the project."""
    try:
        group = project.settings.stat().st_gid
        is_member = os.geteuid() == 0 or group in (os.getegid(), *os.getgroups())
        if is_member and os.access(project.settings, os.R_OK):
            return
    except OSError:
        pass
    raise Fault(f"{project.folder}: {NO_MEMBER}")


@contextmanager
def turn_of(project: Project) -> Iterator[None]:
    """Lets one command at a time change the files of a project's bridge."""
    project.check_bridge()
    with project.bridge_file.open() as file:
        try:
            fcntl.flock(file, fcntl.LOCK_EX | fcntl.LOCK_NB)
        except BlockingIOError:
            says = "another `app` or `submit` is at work: wait until it has ended"
            raise Fault(f"{project.folder}: {says}") from None
        yield


def is_serving(project: Project) -> bool:
    """Returns whether the project's scheduler serves. Nobody listens if it does not. A scheduler that gives
    no answer, or that has another key, is a fault.
    """
    port = project.port()
    connection = http.client.HTTPConnection("127.0.0.1", port, timeout=ASK_SECONDS)
    try:
        connection.request("GET", "/hosts/1", headers={"x-operator-key": project.operator_key})
        status = connection.getresponse().status
    except ConnectionRefusedError:
        return False
    except (OSError, http.client.HTTPException):
        advice = f"see `bsched-tools health --project {project.name}`"
        raise Fault(f"port {port}: the scheduler gives no answer: {advice}") from None
    finally:
        connection.close()
    if status == 403:
        wrong = "is it that of another project, or was the key changed?"
        raise Fault(f"{project.settings}: the scheduler on port {port} refuses this operator_key: {wrong}")
    if status not in (200, 404):
        raise Fault(f"port {port}: the scheduler is not available (status {status}): try again later")
    return True


def check_importing(project: Project, look: Look) -> None:
    """Checks that imports will be taken: by the scheduler, or by the program if nobody has the tables."""
    if is_serving(project):
        return
    port = project.port()
    if look.is_served:
        where = f"{project.folder / 'environment'}: nobody answers on the port {port} of the scheduler"
        raise Fault(f"{where}, but a program has the tables: correct PORT, or stop that program")
    if not projects.PROGRAM.exists():
        raise Fault(
            f"{projects.PROGRAM}: it is not there, and no scheduler answers on port {port}: start one"
        )


def fresh_copy(project: Project, stack: ExitStack) -> Look:
    """Returns a copy of the tables that is taken now. It is removed when the stack ends; what a killed look
    left is removed by the next one.
    """
    folder = stack.enter_context(work_folder(project.made(project.units().copies, 0o700)))
    own = folder / "look"  # this process holds the folder above it
    own.mkdir()
    copied = copy_tables(project.tables, own / "now.db")
    return Look(copied.path, True, copied.still_seconds is not None)


@contextmanager
def looked_at(project: Project) -> Iterator[Look]:
    """Yields a copy of the tables that is taken now, or the newest one if none can be taken."""
    with ExitStack() as stack:
        try:
            look = fresh_copy(project, stack)
        except (Fault, OSError) as fault:
            look = Look(newest_copy(project, str(fault)), False, False, str(fault))
        yield look


def newest_copy(project: Project, why: str) -> Path:
    """Returns the newest copy of a project, of which no copy could be taken now."""
    folder = project.units().copies
    try:
        if not folder.is_dir() or not copies_in(folder):
            advice = f"make one by `bsched-tools copy --project {project.name}`, as root"
            raise Fault(f"{why}; and there is no older copy: {advice}")
        return found_copy(folder)
    except OSError as error:
        raise Fault(f"{folder}: {error.strerror}: run this as root") from None


@contextmanager
def tables_of(project: Project) -> Iterator[tuple[Look, Tables]]:
    """Yields the tables of such a copy."""
    with looked_at(project) as look, opened(look.path) as tables:
        yield look, tables
