"""One run of the trial: from the lock of the project to the end of all programs."""
import fcntl
import time
import urllib.error
from contextlib import ExitStack
from pathlib import Path
from typing import NoReturn

from bsched_files.faults import Fault
from bsched_files.ports import BRIDGE, SCHEDULER
from trial.programs import Bridge, Scheduler

from . import folder as folders
from .client import OwnClient, command_to_join
from .folder import Folder
from .processes import Keeper
from .program import SchedulerProgram
from .terminal import say
from .work import BATCH, add_work, count_work

CONNECTIONS = "1000000"  # the most that the scheduler serves before it ends; then it is started again
TICK_SECONDS, COUNT_SECONDS = 30.0, 60.0
LOOK_SECONDS, CREDIT_SECONDS, SLOW_CREDIT_SECONDS = 0.5, 1.0, 10.0


def near(path: Path) -> str:
    """Returns a path as people type it: from the current folder, if it is in it."""
    here = Path.cwd()
    return str(path.relative_to(here)) if path.is_relative_to(here) else str(path)


def locked(stack: ExitStack, path: Path) -> bool:
    """Takes a lock until the stack ends, and returns whether it did: another process may have it. The kernel
    gives a lock back when its process ends, also if it is killed."""
    path.parent.mkdir(parents=True, exist_ok=True)
    file = stack.enter_context(path.open("ab"))
    try:
        fcntl.flock(file, fcntl.LOCK_EX | fcntl.LOCK_NB)
    except BlockingIOError:
        return False
    return True


class Every:
    """Something that is done from time to time, for the first time at once."""

    def __init__(self, seconds: float) -> None:
        self.seconds, self.next = seconds, 0.0

    def is_due(self) -> bool:
        """Returns whether it is time for it. If so, the next time is that many seconds later."""
        now = time.monotonic()
        if now < self.next:
            return False
        self.next = now + self.seconds
        return True


class Credit:
    """What is printed of the client's credit."""

    def __init__(self, client: OwnClient, is_new: bool) -> None:
        self.client, self.is_first = client, is_new
        self.seen = self.next = 0.0
        self.began = time.monotonic()

    def look(self) -> None:
        """Asks the client from time to time, and prints a credit that has changed."""
        if time.monotonic() < self.next:
            return
        credit = self.client.seen_credit()
        if credit is not None and credit > self.seen:
            since = (
                f", {time.monotonic() - self.began:.0f} seconds after it attached" if self.is_first else ""
            )
            say(f"the {'first ' * self.is_first}credit of the client{since}: {credit:g}")
            self.seen, self.is_first = credit, False
        self.next = time.monotonic() + (SLOW_CREDIT_SECONDS if self.seen else CREDIT_SECONDS)


class Session:
    """The programs of one run."""

    def __init__(self, folder: Folder, stack: ExitStack) -> None:
        self.folder, self.keeper = folder, Keeper()
        self.scheduler: Scheduler | None = None
        self.credit: Credit | None = None
        stack.callback(self.keeper.end)

    def serve(self, program: SchedulerProgram) -> None:
        """Starts the scheduler and the bridge, and gives the project its work if it has none."""
        path = self.folder.path
        self.scheduler = Scheduler(
            str(program.path), path, self.folder.port(SCHEDULER), self.folder.operator_key
        )
        self.scheduler.words[-1] = CONNECTIONS
        self.keeper.add(self.scheduler)
        say(f"the scheduler serves: {program.said}")
        self.keeper.add(Bridge(self.folder.bridge, self.folder.port(BRIDGE)))
        say("the bridge serves")
        if not self.folder.has_work.exists():
            add_work(self.folder.tools, self.folder.signing_key, self.folder.inputs)
            self.folder.has_work.touch()
            say("an application and its jobs are in the project")

    def join(self) -> None:
        """Starts a client, and attaches it."""
        client = OwnClient(
            self.folder.path, self.folder.url, self.folder.user_key, self.folder.port(folders.CLIENT)
        )
        self.keeper.add(client)
        is_new = client.join()
        self.credit = Credit(client, is_new)
        say(f"a BOINC client runs in {near(client.home)}, {'and attaches' if is_new else 'attached before'}")

    def tick(self) -> None:
        """Has the scheduler let late jobs lapse. A tick that is lost does no harm."""
        if self.scheduler is None:
            return
        try:
            self.scheduler.asked("/tick", "")
        except (OSError, urllib.error.URLError) as error:
            say(f"the scheduler did not answer a tick: {error}")

    def count(self) -> None:
        """Has the project's page say how far the work is. Who only runs a client does not."""
        if self.scheduler is None:
            return
        try:
            count_work(self.folder.tools, self.folder.counts)
        except Fault as fault:
            say(f"the work was not counted: {fault}")

    def stay(self) -> NoReturn:
        """Keeps everything running, until a signal ends it."""
        ticks, counts = Every(TICK_SECONDS), Every(COUNT_SECONDS)
        while True:
            for name in self.keeper.look():
                say(f"the {name} had ended, and was started again")
            if ticks.is_due():
                self.tick()
            if counts.is_due():
                self.count()
            if self.credit is not None:
                self.credit.look()
            time.sleep(LOOK_SECONDS)


def announce(folder: Folder, program: SchedulerProgram, has_client: bool, again: str) -> None:
    """Prints where the project is, and what to do next. `again` is the command that continues with it."""
    tools = near(folder.tools)
    how = "Two more ways to join" if has_client else "To join"
    lines = [
        "",
        f"The page of the project:  {folder.url}",
        "",
        f"{how}: add that URL in a BOINC Manager on this computer, or run",
        f"  {command_to_join(folder.url, folder.user_key)}",
        *([] if has_client else [f"or, in another terminal,  {again} --client"]),
        "",
        "How far the jobs are, and their outputs:",
        f"  {tools} progress --batch {BATCH}",
        f"  {tools} collect --batch {BATCH} --to {near(folder.path / 'outputs')}",
        "",
        f"Ctrl-C ends all of it. The next {again} continues.",
        *([f"The scheduler is {program.said}"] if program.is_twin else []),
        "",
    ]
    print("\n".join(lines), flush=True)


def run(folder: Folder, program: SchedulerProgram, has_client: bool, again: str) -> None:
    """Makes the project if there is none, and runs it until a signal comes."""
    if folder.path.exists():
        folder.check_owner()
        say(f"the project in {near(folder.path)} continues")
    else:
        folders.make(folder, program)
        say(f"a new project is in {near(folder.path)}")
    folders.write_tools(folder.tools)
    folder.program_file.write_text(f"{program.path}\n")
    with ExitStack() as stack:
        session = Session(folder, stack)
        session.serve(program)
        announce(folder, program, has_client, again)
        if has_client:
            session.join()
        session.stay()


def run_client(folder: Folder) -> None:
    """Runs a client for a project that another run serves, until a signal comes."""
    folder.check_owner()
    with ExitStack() as stack:
        session = Session(folder, stack)
        session.join()
        session.stay()
