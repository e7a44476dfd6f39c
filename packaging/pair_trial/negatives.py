"""Trials that must fail: a pair whose settings are wrong, and the event that shows it. If the trial found
nothing there, it would find nothing elsewhere.
"""
import time
from collections.abc import Callable
from dataclasses import dataclass

from debian_trial.debian import TrialFault

from .events import back, taken_over
from .networks import CLIENTS, LINK, plug_in, pull_out
from .setting_up import FOLDER, wait_until
from .trial import PAIR, Trial, seen

RESOURCE = "/etc/drbd.d/bsched.res"
DELAY_MILLISECONDS = 2000  # of what goes over the link: as long as a write may be on one disk only
DELAY = f"modprobe sch_netem; tc qdisc add dev vec1 root netem delay {DELAY_MILLISECONDS}ms"
# with protocol A a write is done before the other machine has it. Its pings may take as long as its writes
PROTOCOL_A = "s/protocol C;/protocol A;/; s/net {/net { ping-timeout 100;/"
NO_FENCING = "s/resource-and-stonith/dont-care/"
WRITE = f"while date > {FOLDER}/written && sync {FOLDER}/written; do sleep 0.5; done"


@dataclass(frozen=True, slots=True)
class Negative:
    """A pair with a wrong setting: the edit of DRBD's file that makes it, what happens, and the words of the
    fault that must be found.
    """

    name: str
    edit: str
    happen: Callable[[Trial], None]
    words: str


def lose_at_once(trial: Trial) -> None:
    """The machine with the project loses its power right after it acknowledged a report, and the link is
    slow.
    """
    active = trial.active()
    active.run(DELAY)
    time.sleep(10)
    count = len(trial.notes.reports)
    wait_until(lambda: len(trial.notes.reports) > count, "a report is acknowledged", pause=0.01)
    since = time.monotonic()
    active.kill()
    taken_over(trial, active, since, f"{active.name} lost its power")
    back(active)


def write_alone(trial: Trial) -> None:
    """The machine with the project loses both networks, and writes."""
    active = trial.active()
    since = time.monotonic()
    for network in (CLIENTS, LINK):
        pull_out(active.name, network)
    active.finished(f"({WRITE}) > /dev/null 2>&1 < /dev/null &")
    taken_over(trial, active, since, f"{active.name} has no network, and writes")
    for network in (CLIENTS, LINK):
        plug_in(active.name, network)
    back(active)


NEGATIVES = (
    Negative("protocol-a", PROTOCOL_A, lose_at_once, "are not as they were"),
    Negative("no-fencing", NO_FENCING, write_alone, "the disks have diverged"),
)
NAMES = {negative.name: negative for negative in NEGATIVES}


def weaken(trial: Trial, negative: Negative) -> None:
    """Gives DRBD the wrong setting on both machines."""
    for name in PAIR:
        trial.machines[name].run(f"sed -i '{negative.edit}' {RESOURCE}")
    for name in PAIR:
        trial.machines[name].run("drbdadm adjust bsched")


def must_be_found(trial: Trial, negative: Negative) -> None:
    """Ends the trial if it does not find the fault of a wrong setting."""
    trial.settle()
    weaken(trial, negative)
    trial.settle()
    seen(f"{negative.name}: {negative.happen.__doc__}")
    since = time.monotonic()
    try:
        negative.happen(trial)
        trial.settle()
        trial.check(since)
    except TrialFault as fault:
        if negative.words not in str(fault):
            raise
        seen(f"    found, as it must be: {str(fault).splitlines()[0]}")
        return
    raise TrialFault(f"{negative.name}: nothing was found, and a loss or two generations must be")
