"""Proving and building the program with the kit, with a line for each crate."""
import os
import re
import signal
import subprocess
import time
from collections.abc import Iterable, Iterator
from pathlib import Path
from typing import TextIO

from bsched_files.faults import Fault

# lines of the kit that name the crate that is being proved
NAMED = re.compile(
    r"rt: chose --jobs \d+ for ([a-z_0-9]+)$"
    r"|crate ([a-z_0-9]+): modules "
    r"|[a-z]+ ([a-z_0-9]+)::\S*: proved$"
)
SO_FAR = re.compile(r"so far: (\d+ of \d+ functions) checked")
PROVED = "logic=proved "
PAUSE_SECONDS = 60.0  # between two lines about one crate
START = """\
The program is proved and built by the kit, in about an hour on two cores. Ctrl-C stops it: the next ./run
continues with the crate that was at its turn. `./run --twin` shows the same at once, over a plain scheduler.
Nothing is proved of that one. All that the kit says is in {log}."""


class Crates:
    """The crates of the program, and which of them are left to prove."""

    def __init__(self, text: str) -> None:
        """Reads the file crates.txt, which has each crate with the crates and libraries that it needs."""
        self.needed: dict[str, list[str]] = {}
        for line in text.splitlines():
            name, colon, needed = line.partition(":")
            if colon and not name.startswith("#"):
                self.needed[name.strip()] = needed.split()
        self.left = set(self.needed)
        self.current: str | None = None

    def below(self, name: str) -> Iterator[str]:
        """Yields a crate, and all crates that it needs."""
        seen, stack = set[str](), [name]
        while stack:
            one = stack.pop()
            if one in self.needed and one not in seen:
                seen.add(one)
                stack += self.needed[one]
                yield one

    def read(self, line: str) -> str | None:
        """Reads a line of the kit. Returns the name of a crate if the line says that it is proved. Then the
        crates that it needs are proved, too."""
        found = NAMED.match(line)
        name = next(filter(None, found.groups())) if found else None
        if name in self.needed:
            self.current = name
        if not line.startswith(PROVED) or self.current is None:
            return None
        proved, self.current = self.current, None
        self.left -= set(self.below(proved))
        return proved


def progress(crates: Crates, lines: Iterable[str]) -> Iterator[str]:
    """Yields a line for each crate that is proved, and one each minute meanwhile."""
    began = told = time.monotonic()
    for line in lines:
        proved, now = crates.read(line), time.monotonic()
        so_far = SO_FAR.match(line)
        if proved is not None:
            what = f"{proved} is proved; {len(crates.left)} of {len(crates.needed)} crates remain"
        elif so_far and crates.current is not None and now - told >= PAUSE_SECONDS:
            what = f"{crates.current}: {so_far[1]}"
        else:
            continue
        told = now
        yield f"{(now - began) / 60:5.1f} min  {what}"


def logged(lines: Iterable[str], file: TextIO) -> Iterator[str]:
    """Yields lines, and writes each of them to a file before."""
    for line in lines:
        file.write(line)
        file.flush()
        yield line


def last_line(path: Path) -> str:
    """Returns the last line of a file that is not empty."""
    lines = [line.strip() for line in path.read_text(errors="replace").splitlines()]
    return next((line for line in reversed(lines) if line), "it said nothing")


def build(top: Path, maker: Path, log: Path) -> None:
    """Proves and builds the program. What the kit prints goes to the log."""
    crates = Crates((top / "crates.txt").read_text())
    print(START.format(log=log), flush=True)
    log.parent.mkdir(exist_ok=True)
    with (
        log.open("w") as file,
        subprocess.Popen(
            ["setpriv", "--pdeathsig", "TERM", "--", maker],
            stdin=subprocess.DEVNULL,
            stdout=subprocess.PIPE,
            stderr=subprocess.STDOUT,
            text=True,
            errors="replace",
            start_new_session=True,
        ) as process,
    ):
        try:
            for text in progress(crates, logged(process.stdout or (), file)):
                print(text, flush=True)
        except BaseException:
            os.killpg(process.pid, signal.SIGTERM)
            raise
    if process.returncode:
        raise Fault(f"the program was not built: {last_line(log)}: see {log}")
