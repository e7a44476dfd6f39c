"""A machine of User Mode Linux: a kernel that is a process, with disks that are files."""
import contextlib
import os
import signal
import subprocess
import time
from dataclasses import dataclass
from pathlib import Path

from debian_trial.debian import Done, TrialFault, finished

from .networks import LINK, NETWORKS, cable

KERNEL = "/usr/bin/linux.uml"
NICENESS = 10  # the machines leave this computer to others
BOOT_SECONDS = 900  # at most: a starved machine is no failure
COMMAND_SECONDS = 600
DISK_BYTES = 192 << 20
ASK_SECONDS = 60
MOST_TRIES = 100
VOTERS = "corosync-qnetd"
CLUSTER = ("corosync", "corosync-qdevice", "pacemaker", "sbd", "drbd", "nginx")


@dataclass(frozen=True, slots=True)
class Kind:
    """What a machine of this name has."""

    number: int  # the last of its addresses
    memory: str
    networks: tuple[str, ...]
    has_disk: bool
    masked: tuple[str, ...]  # units of packages that are not installed on such a machine


PAIR_NETWORKS = NETWORKS
VOTE_NETWORKS = tuple(name for name in NETWORKS if name != LINK)
KINDS = {
    "alpha": Kind(1, "640M", PAIR_NETWORKS, True, (VOTERS,)),
    "beta": Kind(2, "640M", PAIR_NETWORKS, True, (VOTERS,)),
    "gamma": Kind(3, "192M", VOTE_NETWORKS, False, CLUSTER),
}


def numbers_of(text: str) -> list[int]:
    """Returns the numbers of the processes with a text in their command lines."""
    found = []
    for path in Path("/proc").glob("[0-9]*/cmdline"):
        try:
            if text.encode() in path.read_bytes():
                found.append(int(path.parent.name))
        except OSError:
            continue  # it has ended
    return found


def is_traced(number: int) -> bool:
    """Returns whether another process traces a process, as a kernel does with the programs of its machine."""
    try:
        return "TracerPid:\t0\n" not in Path(f"/proc/{number}/status").read_text()
    except OSError:
        return True  # it has ended


class Machine:
    """One of the three machines. The folder gets its disks, its console's log and its sockets."""

    def __init__(self, name: str, work: Path):
        self.name, self.kind, self.work = name, KINDS[name], work
        self.folder = work / name
        self.folder.mkdir(exist_ok=True)
        self.connections = 0
        self.process: subprocess.Popen[bytes] | None = None
        disk = self.folder / "disk"
        if self.kind.has_disk and not disk.exists():
            with disk.open("wb") as file:
                file.truncate(DISK_BYTES)

    @property
    def mark(self) -> str:
        """The word in the command lines of all its processes, and of no others."""
        return f"uml_dir={self.folder}"

    def command(self) -> list[str]:
        """Returns the command line of its kernel."""
        words = [
            *("nice", "-n", str(NICENESS), KERNEL, self.mark, f"umid={self.name}", f"mem={self.kind.memory}"),
            f"ubd0={self.folder / 'system'},{self.work / 'base.img'}",
            *([f"ubd1={self.folder / 'disk'}"] if self.kind.has_disk else []),
            *("root=/dev/ubda", "rw", f"pairname={self.name}", "con=null", "con0=null,fd:2", "con1=null"),
            "noreboot",  # a kernel that starts itself again hangs here: the trial does it
            *(f"systemd.mask={unit}.service" for unit in self.kind.masked),
        ]
        for network in self.kind.networks:
            place = NETWORKS.index(network)
            words.append(f"vec{place}:transport=tap,ifname={cable(self.name, network)},depth=64,gro=1")
        return words

    # ---- Power

    def start(self) -> None:
        """Switches the machine on, and does not wait for it."""
        self.end_processes()
        self.reconnect()
        log = (self.folder / "console.log").open("ab")
        with log:
            self.process = subprocess.Popen(
                self.command(), stdin=subprocess.DEVNULL, stdout=log, stderr=log, start_new_session=True
            )

    def kill(self) -> None:
        """Takes the power away: nothing of it does one more step, and it does not start by itself."""
        process, self.process = self.process, None
        self.end_processes()
        if process is not None:
            process.wait(ASK_SECONDS)

    def end_processes(self) -> None:
        """Ends all processes of the machine. One that is left would keep its networks."""
        for _ in range(MOST_TRIES):
            numbers = numbers_of(self.mark)
            if not numbers:
                return
            for number in numbers:
                with contextlib.suppress(ProcessLookupError):
                    os.kill(number, signal.SIGKILL)
            time.sleep(0.1)
        raise TrialFault(f"{self.name} does not end")

    def freeze(self) -> None:
        """Stops all that it does, as it is. The programs of the machine are traced by its kernel, and get no
        further than their next step without it.
        """
        for number in numbers_of(self.mark):
            if not is_traced(number):
                os.kill(number, signal.SIGSTOP)

    def thaw(self) -> None:
        """Lets a frozen machine continue."""
        for number in numbers_of(self.mark):
            if not is_traced(number):
                os.kill(number, signal.SIGCONT)

    @property
    def is_off(self) -> bool:
        """Whether it was switched off, or never on. One that was reset starts by itself."""
        return self.process is None

    @property
    def is_reset(self) -> bool:
        """Whether it ended by itself, as its watchdog lets it, and was not switched off."""
        return self.process is not None and self.process.poll() is not None

    # ---- Commands

    def reconnect(self) -> None:
        """Makes a new connection for what comes: the machine was started again."""
        self.connections += 1

    def enter(self) -> list[str]:
        """Returns the command that runs a shell in it. Commands share a connection."""
        options = {
            "IdentityFile": str(self.work / "key"),
            "StrictHostKeyChecking": "no",
            "UserKnownHostsFile": "/dev/null",
            "LogLevel": "ERROR",
            "ConnectTimeout": "20",
            "ServerAliveInterval": "10",
            "ServerAliveCountMax": "6",
            "ControlMaster": "auto",
            "ControlPersist": "yes",
            "ControlPath": str(self.folder / f"ssh-{self.connections}"),
        }
        words = [word for name, value in options.items() for word in ("-o", f"{name}={value}")]
        return ["ssh", *words, f"root@10.77.2.{self.kind.number}"]

    def finished(self, command: str, seconds: int = COMMAND_SECONDS) -> Done:
        """Runs a shell command in it as root, and returns how the command ended."""
        return finished([*self.enter(), f"exec bash -c {quoted(command)}"], seconds)

    def run(self, command: str, seconds: int = COMMAND_SECONDS) -> str:
        """Returns what a shell command in it prints. The command must end with status 0."""
        done = self.finished(command, seconds)
        if done.returncode:
            raise TrialFault(f"{self.name}: {command}: status {done.returncode}\n{done.stdout[-3000:]}")
        return done.stdout

    def boot(self) -> str:
        """Returns the name of its boot, which no other one has."""
        return self.run("cat /proc/sys/kernel/random/boot_id").strip()

    def is_up(self) -> bool:
        """Returns whether it answers."""
        try:
            return self.finished("true", ASK_SECONDS).returncode == 0
        except TrialFault:
            return False

    def wait_until_up(self) -> None:
        """Waits until commands can be run in it."""
        until = time.monotonic() + BOOT_SECONDS
        while not self.is_up():
            if time.monotonic() > until:
                raise TrialFault(f"{self.name} does not start: see {self.folder / 'console.log'}")
            time.sleep(2)


def quoted(text: str) -> str:
    """Returns a text as one word of a shell."""
    return "'" + text.replace("'", "'\\''") + "'"
