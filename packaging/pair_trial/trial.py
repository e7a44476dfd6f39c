"""The machines with the project, the clients and the observer: what the events work with."""
import threading
import time
from collections.abc import Callable, Iterable
from pathlib import Path

from debian_trial.debian import TrialFault

from .comparing import compare
from .machine import KINDS, Machine
from .networks import make_networks
from .notes import Notes, first_after, longest_pause
from .observing import Look, Observer, both_at_once
from .setting_up import wait_until
from .volunteers import Volunteers

CLIENTS = 2
SETTLE_SECONDS = 1800  # for the clients to be served, and for both disks to have all
CALM_SECONDS = 15.0  # in which clients are served before an event
PAIR = ("alpha", "beta")
GOOD_DISK = "cs:Connected ro:Primary/Secondary ds:UpToDate/UpToDate"
ALONE = "cs:StandAlone"  # DRBD found two generations, and connects no more
RECENT_SECONDS = 3.0
LOOK_SECONDS = 1.0
FENCED = "drbd-fence-by-handler"  # what a fencing writes into the cluster, and a resync takes away
began = time.monotonic()


def seen(text: str) -> None:
    """Prints what was seen, and when."""
    print(f"{time.monotonic() - began:7.1f} s  {text}", flush=True)


class Power(threading.Thread):
    """Starts the machines again that their watchdogs reset, as the firmware of a computer does."""

    def __init__(self, machines: Iterable[Machine]):
        super().__init__(name="power", daemon=True)
        self.machines, self.ending = list(machines), threading.Event()

    def run(self) -> None:
        """Looks at the machines until the trial ends."""
        while not self.ending.wait(LOOK_SECONDS):
            for machine in self.machines:
                if machine.is_reset:
                    seen(f"    {machine.name} was reset, and starts again")
                    machine.start()

    def end(self) -> None:
        """Starts no machine any more."""
        self.ending.set()
        self.join()


class Trial:
    """Three machines, the clients of their project, and what was seen of them."""

    def __init__(self, work: Path):
        self.work = work
        self.machines = {name: Machine(name, work) for name in KINDS}
        self.notes = Notes(work / "notes.jsonl")
        self.power = Power(self.machines.values())
        self.observer: Observer | None = None
        self.volunteers: Volunteers | None = None

    # ---- Begin and end

    def boot(self) -> None:
        """Makes the networks, and starts the machines."""
        make_networks({name: kind.networks for name, kind in KINDS.items()})
        self.observer = Observer()
        self.observer.start()
        for machine in self.machines.values():
            machine.start()
        self.power.start()
        for machine in self.machines.values():
            machine.wait_until_up()
        seen("three machines run")

    def begin_load(self) -> None:
        """Lets the clients begin."""
        self.volunteers = Volunteers(CLIENTS, self.work / "certificate", self.notes)
        wait_until(lambda: self.notes.reports, "a client's report is acknowledged")
        seen("clients: a first report is acknowledged")

    def end(self) -> None:
        """Ends the clients and the machines."""
        if self.volunteers is not None:
            self.volunteers.end()
        if self.power.is_alive():
            self.power.end()
        for machine in self.machines.values():
            machine.kill()
        self.notes.close()

    # ---- What is so now

    def looks(self, since: float) -> list[Look]:
        """Returns what the machines said since a moment."""
        if self.observer is None:
            raise TrialFault("nobody listens to the machines")
        return self.observer.since(since)

    def active(self) -> Machine:
        """Returns the machine that has the project, once one has it."""
        found: list[str] = []

        def is_known() -> bool:
            name = None if self.observer is None else self.observer.serving()
            found[:] = [] if name is None else [name]
            return bool(found)

        wait_until(is_known, "a machine serves", SETTLE_SECONDS)
        return self.machines[found[0]]

    def other(self, machine: Machine) -> Machine:
        """Returns the other one of the pair."""
        (name,) = set(PAIR) - {machine.name}
        return self.machines[name]

    def is_served(self, since: float) -> bool:
        """Returns whether a client was answered since a moment."""
        self.check_clients()
        return first_after(self.notes.answers, since) is not None

    def check_clients(self) -> None:
        """Ends the trial if a client has ended."""
        if self.volunteers is not None and (faults := self.volunteers.faults()):
            raise TrialFault("; ".join(faults))

    def has_both_disks(self) -> bool:
        """Returns whether the active machine says that both disks have all. Disks that have diverged never
        will.
        """
        looks = self.looks(time.monotonic() - RECENT_SECONDS)
        if any(ALONE in look.disk for look in looks):
            raise TrialFault("the disks have diverged: a machine says StandAlone")
        return any(GOOD_DISK in look.disk for look in looks)

    # ---- Waiting

    def wait_until_served(self, since: float, seconds: float = SETTLE_SECONDS) -> float:
        """Waits for an answer after a moment. Returns after how many seconds it came."""
        try:
            wait_until(lambda: self.is_served(since), "a client is answered", seconds, 0.5)
        except TrialFault as fault:
            last = "" if self.volunteers is None else self.volunteers.last_faults()
            raise TrialFault(f"{fault}: {last}") from None
        first = first_after(self.notes.answers, since)
        return 0.0 if first is None else first

    def settle(self) -> None:
        """Waits until both machines have the project, and each of them may get it."""
        active = self.active()
        self.wait_until_served(time.monotonic())
        wait_until(self.has_both_disks, "both disks have all", SETTLE_SECONDS)
        wait_until(
            lambda: not self.is_fenced(active), "the cluster's note of a fencing is gone", SETTLE_SECONDS
        )
        active.run("crm_resource --cleanup > /dev/null 2>&1; true")
        wait_until(lambda: self.is_whole(active), "all of the cluster runs", SETTLE_SECONDS)
        time.sleep(CALM_SECONDS)

    def is_fenced(self, machine: Machine) -> bool:
        """Returns whether the cluster has a note that a machine may not get the project."""
        return FENCED in machine.finished("cibadmin --query --scope constraints").stdout

    def is_whole(self, machine: Machine) -> bool:
        """Returns whether Pacemaker sees both machines, and all resources run."""
        status = machine.finished("crm_mon -1 --group-by-node --inactive").stdout
        wrong = ("OFFLINE", "UNCLEAN", "pending", "Stopped", "FAILED", "standby")
        return "address" in status and not any(word in status for word in wrong)

    # ---- What must be so

    def check(self, since: float) -> None:
        """Checks what must be so after each event: nothing that was acknowledged is missing, two machines
        never served at once, and the disks have the same generation.
        """
        if (both := both_at_once(self.looks(since))) is not None:
            raise TrialFault(f"{both} at the same time")
        active = self.active()
        compare(active, self.notes)
        generations = {name: generation_of(self.machines[name]) for name in PAIR}
        if len(set(generations.values())) != 1:
            raise TrialFault(f"the disks have the generations {generations}")
        pause = longest_pause(self.notes.answers, since, time.monotonic())
        seen(f"    nothing is missing of {self.notes.counts()}; at most {pause:.0f} s without an answer")


def generation_of(machine: Machine) -> str:
    """Returns the generation of a machine's disk. The last bit says whether the machine may write."""
    text = machine.run("drbdsetup get-gi 0 2> /dev/null || drbdadm get-gi bsched").strip().splitlines()[-1]
    return f"{int(text.partition(':')[0], 16) & ~1:016x}"


Step = Callable[[Trial], None]
