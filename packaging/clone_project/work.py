"""The work of the trial: an application, and a job for each of some ranges of numbers."""
import subprocess
from pathlib import Path

from bsched_files.faults import Fault

PROGRAM = Path(__file__).resolve().parent / "application" / "longest_chain.py"
APP, TITLE, BATCH = "chains", "Collatz chains", "first"
JOBS, LAST_NUMBER = 20, 1_000_000
JOB_SECONDS = 10  # of a slow processor
HOURS = "0.003"
STEP_SECONDS = 300
COPIES = "3"  # that are kept


def write_inputs(folder: Path) -> None:
    """Writes the input of each job: the first and the last number of its range."""
    folder.mkdir()
    size = LAST_NUMBER // JOBS
    for number in range(JOBS):
        text = f"{number * size + 1} {(number + 1) * size}\n"
        (folder / f"range_{number + 1:02}").write_text(text)


def ordered(tools: Path, *words: str | Path) -> None:
    """Runs a command of the operator's tools. If this process is killed, so is the command."""
    guarded: list[str | Path] = ["setpriv", "--pdeathsig", "KILL", "--", tools, *words]
    try:
        done = subprocess.run(guarded, capture_output=True, text=True, timeout=STEP_SECONDS)
    except subprocess.TimeoutExpired:
        raise Fault(f"{tools.name} {words[0]} has run for {STEP_SECONDS} seconds, and was stopped") from None
    if done.returncode:
        raise Fault(f"{tools} {words[0]}: {(done.stderr or done.stdout).strip()}")


def count_work(tools: Path, counts: Path) -> None:
    """Counts the work in a copy of the tables, for the project's page."""
    ordered(tools, "copy", "--keep", COPIES)
    ordered(tools, "counts", "--json", "--to", counts)


def add_work(tools: Path, key: Path, inputs: Path) -> None:
    """Adds the application, and submits its jobs. What is there already stays."""
    app: list[str | Path] = ["app", APP, "--title", TITLE, "--program", PROGRAM, "--output", "out:1k"]
    ordered(tools, *app, "--report-immediately", "--key", key)
    submit: list[str | Path] = ["submit", "--app", APP, "--batch", BATCH, "--hours", HOURS, "--quorum", "1"]
    ordered(tools, *submit, inputs)
