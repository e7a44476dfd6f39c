"""How many instructions functions took, as valgrind's callgrind wrote it."""
import re
from collections import Counter
from dataclasses import dataclass, field
from typing import Self

NAMED = re.compile(r"(c?fn)=\((\d+)\)(?: (.*))?")


def crate_of(function: str) -> str:
    """Returns the crate of a function. Functions of C have none: it is `libc`."""
    return function.split("::")[0] if "::" in function else "libc"


@dataclass
class Instructions:
    """For each function its own instructions, those including what it calls, and how often it was called. For
    two crates, `crossings` has the instructions of calls from the first to the second, with all that these
    called."""

    own: Counter[str] = field(default_factory=Counter)
    whole: Counter[str] = field(default_factory=Counter)
    calls: Counter[str] = field(default_factory=Counter)
    crossings: Counter[tuple[str, str]] = field(default_factory=Counter)

    @classmethod
    def read(cls, path: str) -> Self:
        """Reads what callgrind wrote."""
        names: dict[str, str] = {}
        found = cls()
        function = called = ""
        with open(path) as file:
            for line in file:
                if named := NAMED.match(line):
                    if named[3]:
                        names[named[2]] = re.sub(r"('\d+)?$", "", re.sub(r"::<#\w+>", "", named[3]))
                    if named[1] == "fn":
                        function = names[named[2]]
                    else:
                        called = names[named[2]]
                elif line.startswith("calls="):
                    whole = int(next(file).split()[1])
                    found.calls[called] += int(line[6:].split()[0])
                    found.whole[called] += whole
                    found.crossings[crate_of(function), crate_of(called)] += whole
                elif function and re.match(r"[\d+*-]", line):
                    found.own[function] += int(line.split()[1])
        return found

    def since(self, before: Self) -> "Instructions":
        """Returns what came after others."""
        return Instructions(
            self.own - before.own,
            self.whole - before.whole,
            self.calls - before.calls,
            self.crossings - before.crossings,
        )

    def by_crate(self) -> Counter[str]:
        """Returns the instructions of the functions of each crate."""
        crates = Counter[str]()
        for function, many in self.own.items():
            crates[crate_of(function)] += many
        return crates
