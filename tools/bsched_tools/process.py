"""The command `process`: new results for a program of the operator (BOINC: an assimilator). Each run hands on
what is new.

The cursor is written after the program has taken the results. So no result is lost at a stop, and some may
come twice: the program recognizes a result by its name. A workunit with a spoiled file is left out, and comes
with a later run.
"""
from dataclasses import dataclass, field

from bsched_files.atomic import sync
from bsched_files.faults import Fault
from bsched_files.programs import run

from .catalogue_file import output_names_of
from .copies.folder import turn
from .projects import Project, UnitSettings
from .results import write_results

TURN_SECONDS = 0.0  # another run is at work, and will do it


@dataclass(slots=True)
class Handed:
    """What a run did."""

    count: int = 0  # the workunits that were handed on
    spoiled: list[str] = field(default_factory=list)  # for each file that is wrong what is wrong with it


def hand_on(project: Project, settings: UnitSettings, names: dict[str, str]) -> Handed:
    """Hands new results to the program of the settings."""
    if not settings.results_command:
        where = project.folder / "units.toml"
        missing = "" if where.exists() else f"; {project.completing}"
        raise Fault(f'{where}: write command = ["/path/of/your/program"] into its table [results]{missing}')
    folder = project.made(project.made(project.work, 0o700) / "results", 0o700)
    new, handed = folder / "new", Handed()

    def take() -> None:
        """Hands on the file with the results."""
        with new.open("rb") as lines:
            handed.count = sum(1 for _ in lines)
        if handed.count:
            hand([*settings.results_command, str(new)])

    with turn(folder, TURN_SECONDS, "another `process` is at work"):
        new.unlink(missing_ok=True)  # of a run that failed: its results come again
        handed.spoiled = write_results(
            [*project.archives, settings.copies],
            as_lines=True,
            cursor=folder / "cursor",
            target=new,
            names=names,
            uploads=project.uploads,
            output_names=output_names_of(project),
            are_compared=True,
            take=take,
        ).spoiled
        new.unlink()
        sync(folder)
    return handed


def hand(command: list[str]) -> None:
    """Runs the program. Whatever it prints goes where the tool's own output goes."""
    completed = run(command, is_captured=False)
    if completed.returncode:
        raise Fault(
            f"{command[0]}: status {completed.returncode}: the same results come again at the next run"
        )
