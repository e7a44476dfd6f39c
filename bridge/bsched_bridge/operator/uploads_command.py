"""The command `bsched-bridge uploads`: whose the files are that were uploaded and not reported."""
import argparse
import json
import math
from collections import Counter
from collections.abc import Iterator
from contextlib import closing, contextmanager
from dataclasses import dataclass
from pathlib import Path
from typing import cast

from bsched_files.moments import moment_text
from bsched_files.project_settings import read_settings
from bsched_files.texts import shown
from bsched_files.uploads import DATABASE

from ..common.rights import rights_of_owner
from ..common.words import shown_key
from ..uploads.store import UploadStore
from .orders import AnyParser, OrderFault, State, as_table, config_of, open_state

PART = 200  # files that are deleted in a turn; an upload may have to wait for it


@dataclass(frozen=True, slots=True)
class Pending:
    """The files of a host whose results are not reported."""

    authenticator: str
    host_cpid: str
    files: int
    nbytes: int
    oldest: int  # when the first of them came


def add_uploads(orders: "argparse._SubParsersAction[AnyParser]") -> None:
    """Adds the command to the command line."""
    parser = orders.add_parser("uploads", help="lists the files that are not reported, by account")
    where = parser.add_mutually_exclusive_group(required=True)
    where.add_argument("--project", metavar="P", help="the name of a project of bsched-project")
    where.add_argument("--config", type=Path, metavar="FILE", help="the settings of the bridge")
    what = parser.add_mutually_exclusive_group()
    what.add_argument("--json", action="store_true", help="lines of JSON")
    what.add_argument(
        "--delete", metavar="ACCOUNT", help="deletes those of an account that is barred or deleted"
    )


@contextmanager
def opened_store(state: State) -> Iterator[UploadStore]:
    """Opens the folder of uploads of a project for the block, with the rights of its owner."""
    settings = state.settings.uploads
    if settings is None or not (settings.folder / DATABASE).exists():
        raise OrderFault("the project has no folder of uploads")
    with rights_of_owner(settings.folder), closing(UploadStore(settings)) as store:
        yield store


def pending_in(store: UploadStore) -> list[Pending]:
    """Returns the files that are not reported, by host: first those of the account that has the most."""
    rows = store.tables.rows(
        "SELECT authenticator, host_cpid, count(*), sum(nbytes), min(received_at) FROM upload GROUP BY 1, 2"
    )
    found = [Pending(*cast("tuple[str, str, int, int, int]", row)) for row in rows]
    whole = Counter[str]()
    for one in found:
        whole[one.authenticator] += one.nbytes
    return sorted(found, key=lambda one: (-whole[one.authenticator], one.authenticator, -one.nbytes))


def row_of(state: State, one: Pending) -> dict[str, object]:
    """Returns the files of a host as a row of the list."""
    member = state.members.of_key(one.authenticator)
    number = state.file.row(
        "SELECT hostid FROM host WHERE authenticator = ? AND host_cpid = ?", one.authenticator, one.host_cpid
    )
    return {
        "key": shown_key(one.authenticator) if one.authenticator else "-",
        "name": "jobs that nobody knows" if member is None else member.name,
        "state": "" if member is None else state.barred(member),
        "computer": "-" if number is None or number[0] is None else number[0],
        "files": one.files,
        "bytes": one.nbytes,
        "oldest": moment_text(one.oldest),
    }


def listed(state: State, store: UploadStore, is_json: bool) -> Iterator[str]:
    """Yields the list, as a table with what there is in all, or as lines of JSON."""
    found = pending_in(store)
    rows = [row_of(state, one) for one in found]
    if is_json:
        yield from (json.dumps(row) for row in rows)
        return
    if rows:
        yield from as_table([list(rows[0]), *([str(value) for value in row.values()] for row in rows)])
    files, nbytes = sum(one.files for one in found), sum(one.nbytes for one in found)
    most, used = store.settings.most_account_bytes, store.tables.used()
    yield (
        f"{files} files of {nbytes} bytes are not reported; an account may have {most}. "
        f"All uploads have {used} bytes of {store.settings.most_bytes}"
    )


def deleted(state: State, store: UploadStore, name: str) -> Iterator[str]:
    """Deletes the files of a barred or deleted account that are not reported."""
    member = state.find(name)
    shown = f"{member.name} ({shown_key(member.authenticator)})"
    if not state.barred(member):
        raise OrderFault(
            f"{shown} is not barred, and its computers would lose their work: run bsched-bridge bar first"
        )
    uploads = store.uploads("upload.authenticator = ?", member.authenticator)
    files = nbytes = 0
    for start in range(0, len(uploads), PART):
        count, some = store.delete_uploads(uploads[start:][:PART], math.inf)
        files, nbytes = files + count, nbytes + some
    yield f"{shown}: {files} files of {nbytes} bytes are deleted"


def run(args: argparse.Namespace) -> None:
    """Does what the command line says, while a bridge serves the project or not."""
    settings = read_settings(config_of(args))
    with rights_of_owner(settings.state.parent):
        state = open_state(settings)
        try:
            with opened_store(state) as store:
                lines = (
                    listed(state, store, args.json)
                    if args.delete is None
                    else deleted(state, store, args.delete)
                )
                for line in lines:
                    print(shown(line, kept=""))
        finally:
            state.file.close()
