"""The command `bsched-bridge sweep`."""
import time
from collections.abc import Iterable, Set
from pathlib import Path

from bsched_files.faults import Fault
from bsched_files.project_settings import Settings, read_settings
from bsched_files.tables import opened
from bsched_files.toml_entries import OperatorFault
from bsched_files.uploads import DATABASE
from bsched_files.workunits import decided

from ..common.rights import rights_of_owner
from ..common.state_file import StateFile
from ..people.barring import Barring
from .store import UploadStore
from .sweep import Decisions, sweep


def decisions_in(paths: Iterable[Path]) -> Decisions:
    """Returns the decisions in copies of the tables. Raises OperatorFault if one can't be read."""
    decisions = Decisions()
    try:
        for path in paths:
            with opened(path) as tables:
                for unit in decided(tables):
                    decisions.add(unit.name, unit.canonical, unit.output, unit.file)
    except Fault as fault:
        raise OperatorFault(path, None, str(fault)) from None
    return decisions


def barred_in(settings: Settings) -> Set[str]:
    """Returns the keys of the accounts that are barred or deleted."""
    if not settings.state.exists():
        return settings.host_rules.barred
    with rights_of_owner(settings.state.parent):
        file = StateFile(settings.state, is_guest=True)
        try:
            return settings.host_rules.barred | Barring(file).all().keys()
        finally:
            file.close()


def run(config: Path, tables: list[Path]) -> str:
    """Sweeps the folder of uploads of a bridge, which may serve meanwhile. Returns a line that says what was
    deleted. Root works with the rights of the folder's owner.
    """
    settings = read_settings(config)
    if settings.uploads is None:
        raise OperatorFault(config, None, "has no [uploads], so there is nothing to sweep")
    if not (settings.uploads.folder / DATABASE).exists():
        raise OperatorFault(settings.uploads.folder, None, "has no uploads.db, which the bridge makes")
    decisions, barred = decisions_in(tables) if tables else None, barred_in(settings)
    with rights_of_owner(settings.uploads.folder):
        store = UploadStore(settings.uploads)
        try:
            swept = sweep(store, int(time.time()), decisions, barred)
            used = store.tables.used()
        finally:
            store.close()
    return (
        f"swept {settings.uploads.folder}: {swept.uploads} uploads that nobody needs, {swept.jobs} jobs "
        f"that did not come back, {swept.results} results that are not canonical, {swept.contents} stored "
        f"files; {swept.nbytes} bytes are deleted, and {used} are left"
    )
