"""Random lives of a project, with the plain scheduler and with its twin over tables in a file."""
import random
from collections.abc import Iterable
from pathlib import Path
from typing import Any

import plain
import plain_tables
import project as bench_project

CALLS = 300


def life_of(
    seed: int,
    calls: int = CALLS,
    made: type[bench_project.Project] = bench_project.Project,
) -> bench_project.Project:
    """Returns a project of the plain scheduler that lived this many calls. It has the lines of the life."""
    try:
        chance = type("Chosen", (), {"Random": staticmethod(lambda _: random.Random(seed))})
        setattr(bench_project, "random", chance)
        lived = made(calls)
        lived.live()
    finally:
        setattr(bench_project, "random", random)
    return lived


class Stored:
    """The twin over tables in a file, which answers lines."""

    def __init__(self, path: Path, settings: dict[str, int] = bench_project.SETTINGS) -> None:
        plain_tables.create(path, {**plain.SETTINGS, **settings, "operator_key": "opkey-01"})
        self.path, self.tables = path, plain_tables.Tables(path, synchronous="OFF")
        self.service = plain_tables.Service(self.tables)

    def answer(self, lines: Iterable[bytes]) -> list[tuple[int, str]]:
        """Returns the status and the body for each line."""
        return [self.service.answer(line.removesuffix(b"\n")) for line in lines]

    def copy(self, path: Path) -> Path:
        """Makes a copy as `copy` does: one file."""
        self.tables.connection.execute("VACUUM INTO ?", (str(path),))
        return path

    def close(self) -> Path:
        """Closes the tables."""
        self.tables.connection.close()
        return self.path


def stored_life(lived: bench_project.Project, path: Path) -> Path:
    """Returns the tables that the lines of a life leave."""
    stored = Stored(path)
    stored.answer(lived.lines)
    return stored.close()


def decided_by(lived: bench_project.Project) -> list[tuple[Any, ...]]:
    """Returns what the plain scheduler says about workunits that are done or have failed: for each its name,
    the reason or the canonical result, and the verdicts."""
    machine = lived.service.machine
    decided: list[tuple[Any, ...]] = []
    for unit in machine.places:
        if unit.failed():
            decided.append((unit.name, unit.status, None, None, {}))
        elif unit.status == "done":
            good = [one for one in unit.judged if one.exit_status == 0]
            best = plain.canonical(machine.rows["apps"][unit.app], unit, good)
            assert best is not None
            verdicts = {one.name(): one.verdict for one in unit.instances if one.verdict is not None}
            decided.append((unit.name, None, best.name(), best.output, verdicts))
    return decided
