"""The commands of docs/IMAGE.md."""
import time
from collections.abc import Callable
from pathlib import Path

from debian_trial.debian import Done, TrialFault
from debian_trial.path import Block, Step, steps_of

IN_CONTAINER = "runs the next block in the container"
REPEAT_SECONDS = 1800
PAUSE_SECONDS = 5


class Page:
    """A page, whose blocks run one after the other."""

    def __init__(self, path: Path):
        self.steps: dict[int, Step] = {step.number: step for step in steps_of(path)}

    def run(self, number: int, here: Callable[[str], Done], inside: Callable[[str], Done]) -> None:
        """Runs the blocks of a step. They must print what the page says."""
        for block in self.steps[number].blocks:
            run_block(block, inside if IN_CONTAINER in block.note else here)


def run_block(block: Block, runs: Callable[[str], Done]) -> None:
    """Runs a block. It must print what the page says, at once or after a while."""
    until = time.monotonic() + (REPEAT_SECONDS if block.is_repeated else 0)
    while True:
        done = runs(block.commands)
        missing = block.missing_line(done.stdout)
        if done.returncode == 0 and missing is None:
            return
        if time.monotonic() > until:
            fault = f"status {done.returncode}, without the line {missing!r}:\n{done.stdout[-3000:]}"
            raise TrialFault(f"{block.commands}{fault}")
        time.sleep(PAUSE_SECONDS)
