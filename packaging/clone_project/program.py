"""The scheduler of the trial: a built program, or the plain twin in Python."""
import hashlib
import os
import shutil
import subprocess
from dataclasses import dataclass
from pathlib import Path

from bsched_files.faults import Fault

from .proof import build

TOP = Path(__file__).resolve().parent.parent.parent
BUILT = TOP / "crates" / "bsched" / "out" / "bsched"
MAKER = TOP / "packaging" / "program"  # proves and builds the program
TWIN = TOP / "bridge" / "trial" / "twin"
CHECK_SECONDS = 120
NOTHING_PROVED = "the plain twin in Python. NOTHING IS PROVED OF IT: it is not bsched"
NO_PROGRAM = """\
there is no built program, and no kit (the command rt) that proves and builds it. Run one of
  ./run --program FILE   with a bsched that you have, such as /usr/bin/bsched of the package
  ./run --twin           to see the same over a plain scheduler in Python; nothing is proved of it"""


@dataclass(frozen=True, slots=True)
class SchedulerProgram:
    """The program that serves as the scheduler."""

    path: Path
    said: str  # what is known of it, for people
    is_twin: bool = False


def is_program(path: Path) -> bool:
    """Returns whether a file can be run."""
    return path.is_file() and os.access(path, os.X_OK)


def digest_of(path: Path) -> str:
    """Returns the SHA-256 of a file."""
    with path.open("rb") as file:
        return hashlib.file_digest(file, "sha256").hexdigest()


def given(path: Path) -> SchedulerProgram:
    """Returns a program that the command line names. Nobody knows here from which sources it was built."""
    if not is_program(path):
        raise Fault(f"--program {path}: there is no program that can be run")
    said = f"{path}, SHA-256 {digest_of(path)[:16]}..: whoever built it knows from which sources"
    return SchedulerProgram(path.resolve(), said)


def built() -> SchedulerProgram:
    """Returns the program that was built in this clone. `packaging/program` knows whether it is that of the
    commit."""
    done = subprocess.run([MAKER, "--check"], capture_output=True, text=True, timeout=CHECK_SECONDS)
    shown = BUILT.relative_to(TOP)
    if done.returncode == 0:
        return SchedulerProgram(BUILT, f"{shown}, which packaging/program proved and built of this commit")
    return SchedulerProgram(BUILT, f"{shown}, but {done.stderr.strip().removeprefix('packaging/program: ')}")


def chosen(path: Path | None, is_twin: bool, former: Path | None, log: Path) -> SchedulerProgram:
    """Returns the scheduler: the twin if it is asked for, else the given program, else the one that was built
    in this clone, else the one that the project had before. If there is none, the kit proves and builds it.
    """
    if is_twin:
        return SchedulerProgram(TWIN, NOTHING_PROVED, is_twin=True)
    if path is not None:
        return given(path)
    if is_program(BUILT):
        return built()
    if former is not None and is_program(former):
        return given(former)
    if shutil.which("rt") is None:
        raise Fault(NO_PROGRAM)
    build(TOP, MAKER, log)
    return built()
