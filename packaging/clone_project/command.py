"""The command line of `./run`."""
import argparse
import os
import shlex
import shutil
import signal
import sys
from contextlib import ExitStack, suppress
from pathlib import Path
from types import FrameType
from typing import NoReturn

from bsched_files.command_line import CommandLine
from bsched_files.faults import Fault

from . import needs
from .program import TOP, chosen
from .terminal import SIGNALS, is_confirmed

TRIAL = TOP / "trial"
USAGE = """\
Makes a trial project in the folder trial, and runs it until Ctrl-C: the scheduler, and the bridge for BOINC's
clients, on this computer alone. The next ./run continues with the same project.
"""


class Ended(Exception):
    """Raised by a signal that ends the run."""


def end_by_signal(_number: int, _frame: FrameType | None) -> NoReturn:
    """Ends the run in order. Further signals don't disturb the end."""
    for number in SIGNALS:
        signal.signal(number, signal.SIG_IGN)
    raise Ended


def parsed(words: list[str]) -> argparse.Namespace:
    """Reads the command line."""
    parser = CommandLine(prog="./run", description=USAGE)
    scheduler = parser.add_mutually_exclusive_group()
    scheduler.add_argument("--program", type=Path, metavar="FILE", help="a built bsched, as the scheduler")
    scheduler.add_argument(
        "--twin",
        action="store_true",
        help="a plain scheduler in Python, not bsched: nothing is proved of it. It has a project of its own",
    )
    parser.add_argument(
        "--client", action="store_true", help="also runs a BOINC client of its own that joins"
    )
    parser.add_argument("--fresh", action="store_true", help="removes the project, and begins a new one")
    parser.add_argument(
        "--folder", type=Path, default=TRIAL, metavar="DIR", help="where the projects are; default: trial"
    )
    parser.add_argument(
        "--yes", action="store_true", help="asks nothing: installs packages, and removes the project"
    )
    return parser.parse_args(words)


def remove(path: Path, is_agreed: bool) -> None:
    """Removes a project, if that is agreed on."""
    if not path.exists():
        return
    if not is_agreed and not is_confirmed(f"Remove {path} with all its results?"):
        raise Fault(f"{path} stays: --fresh removes it only if you confirm, or with --yes")
    gone = path.with_name(f".{path.name}.gone")
    shutil.rmtree(gone, ignore_errors=True)
    path.rename(gone)
    shutil.rmtree(gone)


def again_text(args: argparse.Namespace) -> str:
    """Returns the command that continues with the same project."""
    words = ["./run", *(["--twin"] if args.twin else [])]
    return shlex.join([*words, *(["--folder", str(args.folder)] if args.folder != TRIAL else [])])


def run(args: argparse.Namespace) -> None:
    """Does what the command line says."""
    needs.provide(args.client, args.yes)
    from . import session  # it needs Debian's packages
    from .folder import Folder

    name = "twin" if args.twin else "project"
    trial = args.folder.resolve()
    folder = Folder(trial / name)
    with ExitStack() as stack:
        lock = session.locked(stack, trial / f".{name}.lock")
        if not lock and (not args.client or args.fresh):
            raise Fault(f"another ./run has {folder.path}: end that one first")
        if args.client and not session.locked(stack, trial / f".{name}.client.lock"):
            raise Fault("another ./run has the client of the project: end that one first")
        if not lock:
            session.run_client(folder)
            return
        program = chosen(args.program, args.twin, folder.former_program, trial / "proof.log")
        if args.fresh:
            remove(folder.path, args.yes)
        session.run(folder, program, args.client, again_text(args))


def main() -> int:
    """Runs the trial, and returns the exit status."""
    args = parsed(sys.argv[1:])
    for number in SIGNALS:
        signal.signal(number, end_by_signal)
    try:
        run(args)
    except Ended:
        with suppress(OSError):  # the terminal may be gone
            print("ended in order", flush=True)
        return 0
    except BrokenPipeError:  # who read the output has enough
        os.dup2(os.open(os.devnull, os.O_WRONLY), 1)
        return 128 + signal.SIGPIPE
    except Fault as fault:
        print(f"run: {fault}", file=sys.stderr)
        return 1
    return 0
