"""The units of a machine: systemd runs them if it is booted, else their commands run as the unit's user."""
import re
import shlex
import time
from collections.abc import Callable
from typing import TypeVar

from .debian import Machine, TrialFault


Found = TypeVar("Found")


def wait_until(look: Callable[[], Found], seconds: float) -> Found:
    """Looks again and again until that is no fault, and returns what it found."""
    until = time.monotonic() + seconds
    while True:
        try:
            return look()
        except TrialFault:
            if time.monotonic() > until:
                raise
        time.sleep(1)


class Units:
    """Starts, stops and checks the units of a machine."""

    def __init__(self, machine: Machine):
        self.machine = machine

    def start(self, unit: str) -> None:
        """Starts a unit that must come up."""
        if self.machine.boots:
            self.machine.run(f"systemctl enable --now {unit}", 120)
        else:
            done, journal = self.begin_by_hand(unit)
            if not done:
                raise TrialFault(f"{unit} does not start: {journal}")

    def refused(self, unit: str, text: str) -> str:
        """Returns the line of a unit that must not start. The line must have these words."""
        if self.machine.boots:
            # systemd keeps trying, so the command does not wait
            self.machine.run(f"systemctl start --no-block {unit}")
            journal = self.line_in_journal(unit, text)
            self.machine.run(f"systemctl stop {unit}")
        else:
            done, journal = self.begin_by_hand(unit)
            if done:
                raise TrialFault(f"{unit} started, though it should not")
        lines = [line for line in journal.splitlines() if text in line]
        if not lines:
            raise TrialFault(f"{unit} says {journal!r}, and not {text!r}")
        return lines[0]

    def line_in_journal(self, unit: str, text: str) -> str:
        """Returns what the journal has of a unit, once it has these words."""
        journal = ""
        for _ in range(40):
            journal = self.machine.run(f"journalctl --no-pager --output=cat --unit={unit}")
            if text in journal:
                return journal
            time.sleep(0.5)
        return journal

    def stop(self, unit: str) -> None:
        """Stops a unit."""
        if self.machine.boots:
            self.machine.run(f"systemctl stop {unit}")
        else:
            pid = self.main_pid(unit)
            self.machine.run(f"kill {pid}; while kill -0 {pid} 2> /dev/null; do sleep 0.1; done")

    def is_active(self, unit: str) -> bool:
        """Returns whether a unit runs."""
        if self.machine.boots:
            return self.machine.finished(f"systemctl is-active {unit}").stdout.strip() == "active"
        return self.machine.finished(f"kill -0 $(cat /run/{unit}.pid)").returncode == 0

    def main_pid(self, unit: str) -> str:
        """Returns the number of the unit's main process."""
        if self.machine.boots:
            return self.machine.run(f"systemctl show --property=MainPID --value {unit}").strip()
        return self.machine.run(f"cat /run/{unit}.pid").strip()

    # ---- Without a boot

    def begin_by_hand(self, unit: str) -> tuple[bool, str]:
        """Runs a unit's commands as its user, in systemd's order. Returns whether it came up, and what it
        said."""
        name, _, instance = unit.removesuffix(".service").partition("@")
        keys = self.keys_of(f"{name}@.service", instance)
        log, pid = f"/tmp/{unit}.log", f"/run/{unit}.pid"
        user, ports, folder = keys["User"][0], keys["EnvironmentFile"][0], keys["WorkingDirectory"][0]
        setting = f"set -a; . {ports}; set +a; cd {folder}; umask {keys['UMask'][0]}"
        for command in keys.get("ExecStartPre", []):
            done = self.machine.finished(f"{setting}; runuser -u {user} -- {expanded(command)}", 120)
            if done.returncode:
                return False, done.stdout
        begun = f"echo $$ > {pid}; exec {expanded(keys['ExecStart'][0])}"
        self.machine.run(
            f"{setting}; touch {pid}; chown {user}: {pid}; "
            f"setsid setpriv --reuid={user} --regid={user} --init-groups bash -c {shlex.quote(begun)} "
            f"> {log} 2>&1 < /dev/null & sleep 1"
        )
        setting += f"; export MAINPID=$(cat {pid})"
        for command in [*keys.get("ExecStartPost", []), *waits_for_notice(keys)]:
            done = self.machine.finished(f"{setting}; runuser -u {user} -- {expanded(command)}", 120)
            if done.returncode:
                return False, self.machine.run(f"cat {log}")
        return True, self.machine.run(f"cat {log}")

    def keys_of(self, file: str, instance: str) -> dict[str, list[str]]:
        """Returns the keys of a unit file, with the name of the instance filled in."""
        text = self.machine.run(f"cat /lib/systemd/system/{file}").replace("%i", instance)
        keys: dict[str, list[str]] = {"UMask": ["0022"]}
        for key, value in re.findall(r"^([A-Z]\w+)=(.+)$", text, re.MULTILINE):
            keys[key] = [*(keys.get(key, []) if key != "UMask" else []), value]
        return keys


def waits_for_notice(keys: dict[str, list[str]]) -> list[str]:
    """Returns the command that waits until a unit's port answers, if systemd would await the unit's
    notice."""
    return ["/usr/libexec/bsched/wait-for-port ${BRIDGE_PORT}"] if "notify" in keys.get("Type", []) else []


def expanded(command: str) -> str:
    """Returns a command of a unit file for a shell, which expands the variables as systemd does."""
    return " ".join(f'"{word}"' if "${" in word else shlex.quote(word) for word in shlex.split(command))
