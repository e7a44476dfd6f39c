"""A clean Debian in a folder, and a machine that runs in it."""
import os
import shutil
import signal
import subprocess
import time
from dataclasses import dataclass
from pathlib import Path
from typing import TypeAlias


@dataclass(frozen=True, slots=True)
class Suite:
    """A release of Debian, or of a system that is made of Debian."""

    title: str
    mirror: str = "http://deb.debian.org/debian"
    components: str = "main"
    keyring: Path | None = None  # if it is not that of Debian


# The next Debian gets a line here.
DEBIANS = {"bookworm": Suite("Debian 12"), "trixie": Suite("Debian 13")}
SUITES = {
    **DEBIANS,
    "noble": Suite(
        "Ubuntu 24.04",
        "http://archive.ubuntu.com/ubuntu",
        "main,universe",
        Path("/usr/share/keyrings/ubuntu-archive-keyring.gpg"),
    ),
}
ROOT_SECONDS = 3600  # on a machine that is busy with other things
BOOT_SECONDS = 120
CLEAN = {
    "PATH": "/usr/sbin:/usr/bin:/sbin:/bin",
    "HOME": "/root",
    "LC_ALL": "C.UTF-8",
    "DEBIAN_FRONTEND": "noninteractive",
}
Done: TypeAlias = "subprocess.CompletedProcess[str]"


class TrialFault(Exception):
    """Something is not as it must be."""


def run(command: list[str], seconds: int = 60, environment: dict[str, str] | None = None) -> str:
    """Returns what a command prints on both outputs. A command that fails ends the trial."""
    done = finished(command, seconds, environment)
    if done.returncode:
        raise TrialFault(f"{' '.join(command)}: status {done.returncode}\n{done.stdout[-3000:]}")
    return done.stdout


def finished(command: list[str], seconds: int = 60, environment: dict[str, str] | None = None) -> Done:
    """Runs a command for at most a number of seconds and returns how it ended."""
    try:
        return subprocess.run(
            command,
            stdin=subprocess.DEVNULL,
            stdout=subprocess.PIPE,
            stderr=subprocess.STDOUT,
            text=True,
            timeout=seconds,
            env=environment,
        )
    except subprocess.TimeoutExpired as late:
        raise TrialFault(f"{' '.join(command)}: not done after {seconds} seconds") from late


class Root:
    """The folder of a Debian. Packages are installed into it before its machine starts."""

    def __init__(self, path: Path):
        self.path = path

    def run(self, command: str, seconds: int = 60) -> str:
        """Returns what a shell command in the folder prints. Nothing is booted for it."""
        return run(["chroot", str(self.path), "sh", "-ec", command], seconds, CLEAN)

    def packages(self) -> set[str]:
        """Returns the names of the installed packages."""
        return set(self.run("dpkg-query --show --showformat='${Package}\\n'").split())


def new_root(path: Path, name: str, mirror: str | None, extra: str) -> Root:
    """Makes the folder of a clean Debian, of one of the suites, from a mirror or from the usual one."""
    suite = SUITES[name]
    options = ["--quiet", "--variant=apt", f"--include={extra}", f"--components={suite.components}"]
    if suite.keyring is not None:
        if not suite.keyring.exists():
            raise TrialFault(f"{suite.title} needs the keys of its archive in {suite.keyring}")
        options.append(f"--keyring={suite.keyring}")
    run(["mmdebstrap", *options, name, str(path), mirror or suite.mirror], ROOT_SECONDS)
    shutil.copy("/etc/resolv.conf", path / "etc" / "resolv.conf")
    return Root(path)


def copied_root(root: Root, path: Path) -> Root:
    """Makes the folder of a Debian that is as another one is now."""
    run(["cp", "--archive", str(root.path), str(path)], 600)
    return Root(path)


class Machine:
    """A machine in a root, with a network of its own: booted by systemd-nspawn, or with nothing started."""

    def __init__(self, root: Root, log: Path, boots: bool):
        self.boots = boots
        folder = str(root.path)
        if boots:
            command = [
                "systemd-nspawn",
                "--quiet",
                f"--directory={folder}",
                "--boot",
                "--private-network",
                "--register=no",
                "--keep-unit",
                "--console=pipe",
                "--resolv-conf=off",
                "--timezone=off",
            ]
        else:
            command = [
                "unshare",
                "--net",
                "--pid",
                "--mount",
                "--uts",
                "--ipc",
                "--fork",
                "--kill-child",
                "chroot",
                folder,
                "sh",
                "-c",
                "mount -t proc proc /proc; while true; do sleep 60; done",
            ]
        with log.open("w") as file:
            self.process = subprocess.Popen(command, stdin=subprocess.DEVNULL, stdout=file, stderr=file)
        self.leader = ""
        try:
            self.wait_until_up()
        except BaseException:
            self.stop()
            raise

    def wait_until_up(self) -> None:
        """Waits until commands can be run in it. A booted machine says that it runs."""
        until = time.monotonic() + BOOT_SECONDS
        while time.monotonic() < until and self.process.poll() is None:
            time.sleep(0.5)
            children = Path(f"/proc/{self.process.pid}/task/{self.process.pid}/children").read_text().split()
            if children:
                self.leader = children[-1]
                if self.is_up():
                    return
        raise TrialFault("the machine does not start")

    def is_up(self) -> bool:
        """Returns whether it is up. Without a boot its loopback is set up here."""
        if self.boots:
            return self.finished("systemctl is-system-running").stdout.strip() in ("running", "degraded")
        loopback = ["nsenter", "--target", self.leader, "--net", "ip", "link", "set", "lo", "up"]
        return finished(loopback).returncode == 0 and self.finished("test -d /proc/1").returncode == 0

    def finished(self, command: str, seconds: int = 60) -> Done:
        """Runs a shell command in it and returns how the command ended."""
        enter = ["nsenter", "--target", self.leader, "--all", "--root", "--wd", "--"]
        return finished([*enter, "bash", "-c", command], seconds, CLEAN)

    def run(self, command: str, seconds: int = 60) -> str:
        """Returns what a shell command in it prints. The command must end with status 0."""
        done = self.finished(command, seconds)
        if done.returncode:
            raise TrialFault(f"{command}: status {done.returncode}\n{done.stdout[-3000:]}")
        return done.stdout

    def refused(self, command: str, status: int, text: str) -> str:
        """Returns the one line of a command that must be refused with this status and these words."""
        done = self.finished(command)
        line = done.stdout.strip()
        if done.returncode != status or text not in line or "\n" in line:
            wanted = f"{status} and one line with {text!r}"
            raise TrialFault(f"{command}: status {done.returncode} and {line!r}, not {wanted}")
        return line

    def stop(self) -> None:
        """Stops it, with all that runs in it."""
        if self.leader and os.path.exists(f"/proc/{self.leader}"):
            os.kill(int(self.leader), signal.SIGKILL)
        self.process.terminate()
        try:
            self.process.wait(30)
        except subprocess.TimeoutExpired:
            self.process.kill()
            self.process.wait()
