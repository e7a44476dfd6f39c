"""Which users agreed to be named, by which names, and their teams. The bridge knows it: volunteers choose on
its pages."""
import json
import shutil
import sys
from dataclasses import dataclass, field
from typing import Any

from bsched_files.faults import Fault
from bsched_files.programs import run

from .projects import Project

SECONDS = 60.0


@dataclass(frozen=True, slots=True)
class Team:
    """A team of users, who are given by their authenticators."""

    number: int
    name: str
    created: int
    founder: str
    members: frozenset[str]


@dataclass(frozen=True, slots=True)
class Volunteers:
    """What volunteers chose."""

    agreed: frozenset[str] = frozenset()  # the authenticators of those who agreed to be named
    # by authenticator; those of deleted accounts and of anonymous users, too
    names: dict[str, str] = field(default_factory=dict)
    teams: tuple[Team, ...] = ()


def command_of_bridge() -> list[str]:
    """Returns the words that run the bridge's commands: the installed program, or the module next to this
    one."""
    installed = shutil.which("bsched-bridge")
    return [installed] if installed else [sys.executable, "-m", "bsched_bridge"]


def ask_bridge(args: list[str]) -> str:
    """Returns what a command of the bridge prints."""
    command = [*command_of_bridge(), *args]
    completed = run(command, SECONDS)
    if completed.returncode:
        raise Fault(f"{command[0]} {args[0]}: {completed.stderr.strip()}")
    return completed.stdout


def volunteers_of(project: Project) -> Volunteers:
    """Returns what the volunteers of a project chose. A project without a bridge has none."""
    state = project.bridge_state
    if state is None or not state.exists():
        return Volunteers()
    rows, teams = (rows_of(project, order) for order in ("consented", "teams"))
    return Volunteers(
        frozenset(row["authenticator"] for row in rows if row["is_agreed"]),
        {row["authenticator"]: row["name"] for row in rows},
        tuple(
            Team(row["number"], row["name"], row["created"], row["founder"], frozenset(row["members"]))
            for row in teams
        ),
    )


def rows_of(project: Project, order: str) -> list[dict[str, Any]]:
    """Returns the rows that a command of the project's bridge prints."""
    output = ask_bridge([order, "--config", str(project.bridge_file), "--json"])
    return [json.loads(line) for line in output.splitlines()]
