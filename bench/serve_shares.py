"""The case `shares` of `bench/serve`: what the dearest messages spend their instructions on.

It sends the messages of the case `dear` to the program under valgrind's callgrind, which counts while a
message is answered. Instructions are no times: one that waits for memory counts as much as any other.
"""
import contextlib
import shutil
import subprocess
from collections.abc import Iterator
from pathlib import Path

from dear_tables import Sizes
from instructions import Instructions
from played import Options, limit_time
from serve_dear import FRESH_CALL, Bench, Figures, Tables, Took, good_messages
from serve_life import Run
from served import needs, wants

CRATES = Path(__file__).parent.parent / "crates"
VALGRIND = "valgrind", "-q", "--tool=callgrind", "--instr-atstart=no"
FIRST = 4  # how many crates are named of the library, and of the project's own
# the crates of the libraries that parse a message or write its answer
FORMATS = {"json", "serde", "serde_json", "csv", "csv_core", "http", "httparse", "matchit"}


def is_library(crate: str) -> bool:
    """Returns whether a crate is of the library that keeps the tables."""
    return crate.startswith("sqlite")


class Shares:
    """Who spent the instructions of a message. What the standard library and the memory's allocation took
    belongs to who called them."""

    def __init__(self, spent: Instructions) -> None:
        own_crates = {path.name for path in CRATES.iterdir()}
        self.all, self.library, self.formats = spent.own.total(), 0, 0
        for (caller, called), many in spent.crossings.items():
            if caller in own_crates and is_library(called):
                self.library += many
            elif is_library(caller) and called in own_crates:
                self.library -= many
            elif caller in own_crates and called in FORMATS:
                self.formats += many
        crates = spent.by_crate().most_common()
        self.own_first = self.first([one for one in crates if one[0] in own_crates])
        self.library_first = self.first([one for one in crates if is_library(one[0])])

    def first(self, crates: list[tuple[str, int]]) -> str:
        """Returns the first of these crates, with what each spent by itself."""
        return ", ".join(f"{crate} {self.percent(many):.0f}" for crate, many in crates[:FIRST])

    def percent(self, many: int) -> float:
        """Returns how many of 100 instructions these are."""
        return 100 * many / self.all

    def line(self) -> str:
        """Returns the line that says it."""
        rest = self.all - self.library - self.formats
        return (
            f"{self.all / 1e6:.0f} million instructions; of 100 the library takes "
            f"{self.percent(self.library):.0f} (by themselves {self.library_first}), the formats "
            f"{self.percent(self.formats):.0f}, and bsched {self.percent(rest):.0f} ({self.own_first})"
        )


class CountedBench(Bench):
    """A program whose instructions are counted while it answers a message."""

    def command(self) -> list[str]:
        """Returns the command under which the program runs."""
        return [*VALGRIND, f"--callgrind-out-file={self.folder}/found"]

    @contextlib.contextmanager
    def watched(self, run: Run, what: str) -> Iterator[None]:
        """Counts what a message takes, and prints who spent it, unless it is a fresh host's call."""
        if what == FRESH_CALL:
            yield
            return
        self.control(run, "--instr=on")
        yield
        self.control(run, "--instr=off")
        self.control(run, "--dump")
        (found,) = Path(self.folder).glob("found.*")
        spent = Instructions.read(str(found))
        found.unlink()
        wants(spent.own.total() > 0, True, f"that callgrind counted {what}")
        print(f"shares: {what}: {Shares(spent).line()}", flush=True)

    def control(self, run: Run, order: str) -> None:
        """Gives callgrind an order."""
        subprocess.run(["callgrind_control", order, str(run.server.pid)], check=True, capture_output=True)


class Silent(Figures):
    """Figures that are not told, since valgrind slows the program."""

    def tell_fresh(self, milliseconds: float) -> None:
        """Prints nothing."""

    def tell(self, took: Took) -> None:
        """Prints nothing."""

    def tell_each(self, microseconds: float) -> None:
        """Prints nothing."""


def shares(options: Options, folder: str) -> None:
    """Prints what the dearest messages spend their instructions on."""
    if shutil.which("callgrind_control") is None:
        needs("bench/serve", "valgrind is missing: apt-get install valgrind")
    limit_time("shares", 14_400)
    tables = Tables(options.program, folder, Sizes().part(options.part))
    good_messages(CountedBench(options.program, folder, Silent()), tables)
