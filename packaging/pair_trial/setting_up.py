"""Sets up the project and the pair, by the commands of the pages and those that bsched-project prints."""
import re
import time
from collections.abc import Callable

from debian_trial.debian import TrialFault

from .machine import Machine
from .page import PAIR_PAGE, PROJECT_PAGE, block_with, printed_commands, section_of, steps_of

PROGRAM = "/root/numbers.sh"
JOBS = 10_000  # more than the clients of a trial do
WORDS = {  # in the commands that bsched-project prints
    "APP": "numbers",
    "PROGRAM": f"{PROGRAM} --command-lines",
    "BATCH": "first",
    "INPUTS": f"--sweep number=1..{JOBS} --hours 0.003 --quorum 1",
}
FOLDER = "/var/lib/bsched/sums"
SETTINGS = f"{FOLDER}/bridge/bridge.toml"
# the disk of the trial is small, and its clients make more accounts than a young project gets on a day
EDITS = (
    "sed -i -e 's/^most_a_day = .*/most_a_day = 10000/' "
    f"-e 's/^# free_bytes = [0-9_]*/free_bytes = 4_000_000/' {SETTINGS}"
)
NGINX_FILES = (
    "/etc/nginx/conf.d/bsched-limits.conf",
    "/etc/nginx/snippets/bsched-sums.conf",
    "/etc/nginx/conf.d/bsched-sums.conf",
)
WAIT_SECONDS = 1800


def wait_until(
    is_so: Callable[[], object], what: str, seconds: float = WAIT_SECONDS, pause: float = 3.0
) -> None:
    """Waits until something is so."""
    until = time.monotonic() + seconds
    while not is_so():
        if time.monotonic() > until:
            raise TrialFault(f"not so after {seconds:.0f} seconds: {what}")
        time.sleep(pause)


class SettingUp:
    """The set-up. The machines run, and have the packages."""

    def __init__(self, machines: dict[str, Machine], seen: Callable[[str], None], options: str = ""):
        self.machines, self.seen, self.options = machines, seen, options
        self.alpha, self.beta = machines["alpha"], machines["beta"]
        self.page = PAIR_PAGE.read_text(encoding="utf-8")

    def run(self) -> None:
        """Sets up all."""
        self.make_project()
        comparison = self.make_pair()
        self.compare(comparison)

    def make_project(self) -> None:
        """Makes the project on the first machine by the page, with an application and work."""
        make = block_with(PROJECT_PAGE.read_text(encoding="utf-8"), "Settings and URL")
        printed = self.alpha.run(make, WAIT_SECONDS)
        self.alpha.run(f"{EDITS} && printf '#!/bin/sh\\necho $1 > out\\n' > {PROGRAM} && chmod 755 {PROGRAM}")
        commands = printed_commands(printed)
        for word, value in WORDS.items():
            commands = re.sub(rf"\b{word}\b", value, commands)
        nginx = "bsched-project nginx sums\n"
        if nginx not in commands:
            raise TrialFault(f"bsched-project prints no line for nginx: {printed!r}")
        self.alpha.run(f"set -e\n{commands.replace(nginx, '')}", WAIT_SECONDS)
        self.seen(f"set up: the project, with {JOBS} jobs")
        self.alpha.run(f"set -e\n{printed_commands(self.alpha.run(nginx))}", WAIT_SECONDS)
        for file in NGINX_FILES:
            self.alpha.run(f"scp -p {file} beta:{file}")

    def make_pair(self) -> str:
        """Runs the command of the page, and the steps that it prints. Returns the command of the last step,
        which compares the machines.
        """
        command = block_with(self.page, "Set up").strip()
        printed = self.alpha.run(f"{command} {self.options}")
        steps = steps_of(printed, ("alpha", "beta"), "gamma")
        if [step.number for step in steps] != list(range(1, 9)):
            raise TrialFault(f"bsched-project pair does not print eight steps: {printed!r}")
        for step in steps[:7]:
            for part in step.parts:
                for name in part.machines:
                    self.machines[name].run(f"set -e\n{part.commands}", WAIT_SECONDS)
            self.seen(f"set up: step {step.number}")
        return steps[7].parts[0].commands

    def compare(self, comparison: str) -> None:
        """Waits until the project is on a machine with its address, and compares the two by step 8."""
        wait_until(self.is_started, "all of the group is started on one machine")
        self.seen("set up: the cluster started the project")
        found = re.search(r"`(This machine has all that[^`]*)`", section_of(self.page, "Set up"))
        wanted = "" if found is None else found[1]
        for machine, other in ((self.alpha, self.beta), (self.beta, self.alpha)):
            command = comparison.replace("ssh beta ", f"ssh {other.name} ")
            output = machine.run(command).strip()
            if output != wanted or not wanted:
                raise TrialFault(f"step 8 prints {output!r} on {machine.name}, not {wanted!r}")
        self.seen(f"set up: step 8 on both: {wanted}")

    def is_started(self) -> bool:
        """Returns whether Pacemaker has started all resources of the project."""
        status = self.alpha.finished("crm_mon -1 --group-by-node --inactive").stdout
        return "Stopped" not in status and "FAILED" not in status and "address" in status
