"""The events: what fails, one after the other, and what must be so meanwhile. After each the trial checks
what must be so after all of them.
"""
import time
from collections.abc import Callable
from dataclasses import dataclass

from debian_trial.debian import TrialFault

from .comparing import answer_of, body_of_call
from .machine import Machine
from .networks import CLIENTS, LINK, plug_in, pull_out
from .page import PAIR_PAGE, UPGRADE_PAGE, block_with, paragraph_of, row_of
from .setting_up import FOLDER, wait_until
from .trial import RECENT_SECONDS, SETTLE_SECONDS, Trial, seen

QUIET_SECONDS = 90  # in which nothing may move the project
THAW_SECONDS = 10  # for a machine that continues: its watchdog is late, and resets it at once
UPGRADE_SECONDS = 1800
VOLUME = "vg0-sums"
TABLE = (  # of the volume, which is on a disk of the machine
    f"dmsetup suspend --noflush {VOLUME} && "
    f'dmsetup load {VOLUME} --table "0 $(blockdev --getsz /dev/ubdb) TARGET" && dmsetup resume {VOLUME}'
)
ERRORS, MENDED = TABLE.replace("TARGET", "error"), TABLE.replace("TARGET", "linear /dev/ubdb 0")
EMPTIED = "dd if=/dev/zero of=/dev/vg0/sums bs=1M oflag=direct 2> /dev/null; true"
FILL = f"cat /dev/zero > {FOLDER}/filler 2> /dev/null; sync {FOLDER}; df --output=avail {FOLDER} | tail -n 1"


@dataclass(frozen=True, slots=True)
class Event:
    """An event, and what it does."""

    name: str
    what: str
    happen: Callable[[Trial], None]


def back(machine: Machine) -> None:
    """Switches a machine on, if it is off, and waits until it runs."""
    machine.reconnect()
    if machine.is_off:
        machine.start()
    machine.wait_until_up()


def taken_over(trial: Trial, lost: Machine, since: float, what: str) -> None:
    """Waits until the other machine serves, and a client is answered by it."""
    other = trial.other(lost)

    def served() -> list[float]:
        return [look.at for look in trial.looks(since) if look.serves and look.machine == other.name]

    wait_until(served, f"{other.name} serves", SETTLE_SECONDS)
    begun = served()[0]
    answered = begun + trial.wait_until_served(begun)
    seen(
        f"    {what}; {other.name} started the scheduler after {begun - since:.0f} s, "
        f"and the first answer came after {answered - since:.0f} s"
    )


def must_be_reset(machine: Machine, former: str) -> None:
    """Checks that a machine was started anew since it had this boot."""
    if machine.boot() == former:
        raise TrialFault(f"{machine.name} was not reset by its watchdog")
    seen(f"    {machine.name} was reset by its watchdog")


def stays(trial: Trial, active: Machine, what: str) -> None:
    """Watches that the project stays where it is, and that clients are served."""
    ends = time.monotonic() + QUIET_SECONDS
    while time.monotonic() < ends:
        trial.wait_until_served(time.monotonic())
        if trial.active() is not active:
            raise TrialFault(f"{what}: the project left {active.name}")
        time.sleep(2)
    seen(f"    {what}; the project stays on {active.name}")


# ---- The machine with the project


def kill(trial: Trial) -> None:
    """The machine with the project loses its power."""
    active = trial.active()
    active.kill()
    since = time.monotonic()
    taken_over(trial, active, since, f"{active.name} lost its power")
    back(active)


def freeze(trial: Trial) -> None:
    """The machine with the project hangs, and continues when the other one has the project."""
    active = trial.active()
    former = active.boot()
    active.freeze()
    since = time.monotonic()
    taken_over(trial, active, since, f"{active.name} hangs")
    active.thaw()
    time.sleep(THAW_SECONDS)
    back(active)
    must_be_reset(active, former)


def cut_both(trial: Trial) -> None:
    """The machine with the project loses both networks. Its watchdog resets it."""
    active = trial.active()
    former = active.boot()
    for network in (CLIENTS, LINK):
        pull_out(active.name, network)
    since = time.monotonic()
    taken_over(trial, active, since, f"{active.name} has no network")
    for network in (CLIENTS, LINK):
        plug_in(active.name, network)
    back(active)
    must_be_reset(active, former)


def cut_clients(trial: Trial) -> None:
    """The machine with the project loses the network of the clients."""
    active = trial.active()
    pull_out(active.name, CLIENTS)
    since = time.monotonic()
    taken_over(trial, active, since, f"{active.name} does not see the clients")
    plug_in(active.name, CLIENTS)
    back(active)


def cut_link(trial: Trial) -> None:
    """The link between the two is cut: the project continues with one copy."""
    active = trial.active()
    pull_out("alpha", LINK)
    stays(trial, active, "the link is cut")
    plug_in("alpha", LINK)


# ---- Disks


def disk_fails(trial: Trial) -> None:
    """The disk of the machine with the project fails. It works on the other machine's disk, and gets a new
    one by the commands of the page.
    """
    active = trial.active()
    active.run(ERRORS)

    def is_detached() -> bool:
        return any("ds:Diskless/" in look.disk for look in trial.looks(time.monotonic() - RECENT_SECONDS))

    wait_until(is_detached, "DRBD detaches the disk", SETTLE_SECONDS)
    stays(trial, active, f"the disk of {active.name} fails")
    active.run(MENDED)
    active.run(EMPTIED)
    codes = paragraph_of(PAIR_PAGE.read_text("utf-8"), "A failed disk")
    (command,) = [code for code in codes if code.startswith("drbdadm create-md")]
    active.run(command)
    seen(f"    the disk is replaced, by {command!r}")


def disk_fills(trial: Trial) -> None:
    """The file system of the project is full, and gets room again."""
    active = trial.active()
    left = active.run(FILL).strip()
    seen(f"    the disk is full: {left} kB are left")
    time.sleep(QUIET_SECONDS)
    since = time.monotonic()
    active.run(f"rm {FOLDER}/filler")
    seconds = trial.wait_until_served(since)
    seen(f"    there is room again, and the first answer came after {seconds:.0f} s")


# ---- The other machines


def vote_away(trial: Trial) -> None:
    """The third machine is away, and comes back."""
    active, gamma = trial.active(), trial.machines["gamma"]
    gamma.kill()
    stays(trial, active, "gamma is away")
    back(gamma)


def standby_first(trial: Trial) -> None:
    """The machine without the project dies, and later the other one. The one that comes back first has older
    data, and must not get the project.
    """
    active = trial.active()
    standby = trial.other(active)
    standby.kill()
    stays(trial, active, f"{standby.name} lost its power")
    active.kill()
    since = time.monotonic()
    back(standby)
    time.sleep(2 * QUIET_SECONDS)
    if any(look.serves for look in trial.looks(since)):
        raise TrialFault(f"{standby.name} has older data, and serves")
    seen(
        f"    {active.name} lost its power, too; {standby.name} came back, and does not serve its older data"
    )
    back(active)
    trial.wait_until_served(since)
    seen(f"    {active.name} came back, and the project runs")


def both(trial: Trial) -> None:
    """Both machines lose their power at once, and come back."""
    machines = [trial.machines[name] for name in ("alpha", "beta")]
    for machine in machines:
        machine.kill()
    since = time.monotonic()
    for machine in machines:
        machine.start()
    for machine in machines:
        back(machine)
    seconds = trial.wait_until_served(since)
    seen(f"    both lost their power and came back; the first answer came after {seconds:.0f} s")


# ---- What the operator does


def move(trial: Trial) -> None:
    """The operator moves the project, by the commands of the page."""
    active = trial.active()
    page = PAIR_PAGE.read_text("utf-8")
    away, there = [code for code in row_of(page, "Every day", "move the project") if code.startswith("crm ")]
    since = time.monotonic()
    active.run(away.replace("alpha", active.name))
    taken_over(trial, active, since, f"moved by {away.replace('alpha', active.name)!r}")
    active.run(there.replace("alpha", active.name))


def upgrade(trial: Trial) -> None:
    """The operator installs the packages again: first on the machine without the project, then by the
    commands of the pages on the other one, while the cluster looks away.
    """
    active = trial.active()
    page = PAIR_PAGE.read_text("utf-8")
    aside, false = row_of(page, "Every day", "edit by hand, with the cluster looking away")
    commands = block_with(UPGRADE_PAGE.read_text("utf-8"), "Upgrading", "systemctl stop")
    commands = commands.replace("apt-get install /root/", "apt-get install --reinstall /root/packages/")
    commands = commands.replace(" /root/bsched-tools", " /root/packages/bsched-tools")
    (install,) = [line for line in commands.splitlines() if line.startswith("apt-get install")]
    trial.other(active).run(install.removesuffix(" &&"), UPGRADE_SECONDS)
    active.run(aside)
    active.run(commands, UPGRADE_SECONDS)
    trial.wait_until_served(time.monotonic())
    active.run(aside.replace("true", false))
    stays(trial, active, "the packages are installed again on both")


EVENTS = (
    Event("kill", "the machine with the project loses its power", kill),
    Event("move", "the operator moves the project", move),
    Event("cut-link", "the link between the two is cut", cut_link),
    Event("cut-clients", "the machine with the project loses the network of the clients", cut_clients),
    Event("cut-both", "the machine with the project loses both networks", cut_both),
    Event("freeze", "the machine with the project hangs", freeze),
    Event("vote-away", "the third machine is away", vote_away),
    Event("standby-first", "the machine without the project dies, and later the other one", standby_first),
    Event("both", "both lose their power, and come back", both),
    Event("disk-fails", "the disk of the machine with the project fails", disk_fails),
    Event("disk-fills", "the disk is full", disk_fills),
    Event("upgrade", "the packages are installed again", upgrade),
)
NAMES = {event.name: event for event in EVENTS}


def happen(trial: Trial, event: Event) -> None:
    """Lets an event happen, and checks what must be so after it."""
    trial.settle()
    body = body_of_call(trial.notes.accounts[0].key)
    answer = answer_of(trial.active(), body)
    since = time.monotonic()
    seen(f"{event.name}: {event.what}")
    event.happen(trial)
    trial.settle()
    if (again := answer_of(trial.active(), body)) != answer:
        raise TrialFault(f"a call that is repeated gets {again!r}, and not {answer!r}")
    trial.check(since)
