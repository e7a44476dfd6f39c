"""The command `bsched-project pair`: writes the files of a pair, prints commands, compares machines."""
import argparse
import secrets
import sys
from collections.abc import Sequence
from ipaddress import IPv4Address, IPv4Interface
from pathlib import Path
from typing import NoReturn

from .check import differences, faults_of_set_up, read_other, state_of
from .files import files_of
from .machine import faults_here
from .pair import NAME, Fault, Machine, Pair, Times, Vote
from .steps import steps
from .units import used_units

PROGRAM = "bsched-project pair"
CHECKING = (
    "Two more forms: `--check NAME` says what this machine lacks. `--state NAME` prints what must be alike "
    "on both. `--check NAME FILE` compares it with such a FILE of the other machine; - is standard input."
)
OPTIONS = "options"  # the file with the words of the command line, a line each
MOST_OPTIONS_BYTES = 10_000
STATUS_MISSING, STATUS_USAGE = 1, 64


class Parser(argparse.ArgumentParser):
    """A reader of the command line whose faults are a line."""

    def error(self, message: str) -> NoReturn:
        """Ends with a line."""
        print(f"bsched-project: {message}: see bsched-project pair --help", file=sys.stderr)
        sys.exit(STATUS_USAGE)


def project(text: str) -> str:
    """Reads the name of a project."""
    if not NAME.fullmatch(text):
        raise argparse.ArgumentTypeError(f"'{text}' is no name of a project")
    return text


def machine(text: str) -> Machine:
    """Reads a machine: its name, its address for clients, and its address on the link."""
    name, _, rest = text.partition("=")
    address, _, link = rest.partition(",")
    try:
        return Machine(name, IPv4Address(address), IPv4Address(link))
    except ValueError:
        raise argparse.ArgumentTypeError(
            f"{text}: write NAME=ADDRESS,LINK, with two IPv4 addresses"
        ) from None


def vote(text: str) -> Vote:
    """Reads the machine with a vote: its name and its address."""
    name, _, address = text.partition("=")
    try:
        return Vote(name, IPv4Address(address))
    except ValueError:
        raise argparse.ArgumentTypeError(f"{text}: write NAME=ADDRESS, with an IPv4 address") from None


def network_address(text: str) -> IPv4Interface:
    """Reads the address of the project, with its network."""
    try:
        address = IPv4Interface(text)
    except ValueError:
        address = None
    if address is None or "/" not in text:
        raise argparse.ArgumentTypeError(
            f"{text}: write an IPv4 address with its network, such as 10.77.0.100/24"
        )
    return address


def writing() -> Parser:
    """Returns the reader of the command line that writes the files."""
    words = Parser(
        prog=PROGRAM, allow_abbrev=False, description="Writes the files of a pair.", epilog=CHECKING
    )
    words.add_argument("project", type=project, metavar="NAME", help="the project, which is on this machine")
    words.add_argument(
        "--machine",
        type=machine,
        action="append",
        required=True,
        metavar="NAME=ADDRESS,LINK",
        help="give it twice",
    )
    words.add_argument(
        "--vote", type=vote, metavar="NAME=ADDRESS", help="the third machine, which has no data"
    )
    words.add_argument(
        "--address", type=network_address, required=True, metavar="ADDRESS/BITS", help="of the project"
    )
    words.add_argument(
        "--disk", type=Path, required=True, help="an empty one, the same path on both machines"
    )
    words.add_argument("--watchdog", type=Path, default=Path("/dev/watchdog"), help="[/dev/watchdog]")
    words.add_argument(
        "--watchdog-seconds", type=int, default=10, metavar="N", help="until it resets a machine [10]"
    )
    words.add_argument(
        "--vote-seconds", type=int, default=9, metavar="N", help="the third machine may be silent [9]"
    )
    return words


def checking() -> Parser:
    """Returns the reader of the command line that says what is missing."""
    words = Parser(prog=PROGRAM, allow_abbrev=False, description="Says what a machine lacks.")
    kinds = words.add_mutually_exclusive_group(required=True)
    kinds.add_argument(
        "--state", type=project, metavar="NAME", help="print what must be alike on both machines"
    )
    kinds.add_argument("--check", type=project, metavar="NAME", help="print what is missing here")
    words.add_argument(
        "other", nargs="?", type=Path, metavar="FILE", help="the state of the other machine, or -"
    )
    return words


def pair_of(args: argparse.Namespace) -> Pair:
    """Returns the pair that the command line says."""
    if len(args.machine) != 2:
        raise Fault(f"a pair has two machines, and --machine was given {len(args.machine)} times")
    times = Times.of(args.watchdog_seconds, args.vote_seconds)
    one, other = args.machine
    return Pair(args.project, (one, other), args.vote, args.address, args.disk, args.watchdog, times)


def say(lines: Sequence[str]) -> int:
    """Prints faults, and returns the status."""
    for line in lines:
        print(f"bsched-project: {line}", file=sys.stderr)
    return STATUS_MISSING if lines else 0


def write_files(pair: Pair, folder: Path, home: Path, words: Sequence[str]) -> None:
    """Writes the files. All may read the options: the tools say with them where the project is. Root alone
    may read the others, since the resource of the disk has a secret.
    """
    folder.mkdir(mode=0o755, parents=True, exist_ok=True)
    texts = dict(files_of(pair, used_units(pair.project), home, secrets.token_hex(16)))
    texts[OPTIONS] = "".join(f"{word}\n" for word in words)
    for name, text in texts.items():
        path = folder / name
        path.touch(mode=0o600)
        path.write_text(text, encoding="utf-8")
        path.chmod(0o644 if name == OPTIONS else 0o600)


def write(projects: Path, folder: Path, words: Sequence[str]) -> int:
    """Writes the files of a pair and prints the commands, unless the pair would not be safe."""
    pair = pair_of(writing().parse_args(words))
    home, written = projects / pair.project, folder / pair.project
    if not (home / "project.db").is_file():
        raise Fault(f"there is no project {home} on this machine")
    if faults := [*pair.faults(), *faults_here(pair)]:
        return say(faults)
    write_files(pair, written, home, words)
    print(steps(pair, used_units(pair.project), home, written), end="")
    return 0


def written_pair(written: Path) -> Pair:
    """Returns the pair whose files are in a folder."""
    try:
        with (written / OPTIONS).open(encoding="utf-8") as file:
            words = file.read(MOST_OPTIONS_BYTES).splitlines()
    except FileNotFoundError:
        raise Fault(f"{written} has no files of a pair: copy the folder from the other machine") from None
    return pair_of(writing().parse_args(words))


def check(folder: Path, args: argparse.Namespace) -> int:
    """Prints what this machine lacks, and in what it differs from the other one."""
    pair = written_pair(folder / args.check)
    faults = [*pair.faults(), *faults_of_set_up(pair, folder / args.check)]
    if args.other is not None:
        other = Path("/dev/stdin") if str(args.other) == "-" else args.other
        faults += differences(state_of(pair.project), read_other(other))
    if faults:
        return say(faults)
    ends = ", and differs in nothing from the other one" if args.other is not None else ""
    print(f"This machine has all that the pair needs{ends}.")
    return 0


def main(words: Sequence[str]) -> int:
    """Runs the command. The first two words are the folders of all projects, and of all pairs."""
    projects, folder, *words = words
    try:
        if not {"--state", "--check"} & set(words):
            return write(Path(projects), Path(folder), words)
        args = checking().parse_args(words)
        if args.state is None:
            return check(Path(folder), args)
        print(state_of(args.state).text(), end="")
        return 0
    except (Fault, OSError) as error:
        return say([str(error)])
