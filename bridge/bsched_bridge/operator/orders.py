"""The operator's commands on accounts. They work on the state file, while a bridge serves it or not.

Root can use them, too, and then works with the rights of the user who has the file's folder.
"""
import argparse
import json
import os
import sys
import tempfile
import time
from collections.abc import Callable, Iterator
from dataclasses import dataclass
from pathlib import Path
from typing import TypeVar

from bsched_files.copies import STATE, STATE_NAME, copy_name, keep_newest, write_copy
from bsched_files.moments import moment_text
from bsched_files.project_settings import PROJECTS, Settings, file_of, read_settings
from bsched_files.texts import credits_text, csv_text, shown

from ..accounts.teams import MOST_TEAMS, Team, Teams
from ..common.rights import own_rights, rights_of_owner
from ..common.state_file import StateFile, make_private
from ..common.words import shown_key
from ..people.barring import Barred, Barring
from ..people.hosts import HeardHost, Hosts
from ..people.members import Member, Members

LEAST_KEY = 6  # characters of a key that name an account
MOST_HOSTS = 1000


class OrderFault(Exception):
    """Raised if a command can't do its work."""


@dataclass(frozen=True, slots=True)
class State:
    """The state file of a project, with what the commands need of it."""

    settings: Settings
    file: StateFile
    members: Members
    hosts: Hosts
    barring: Barring
    teams: Teams

    def barred(self, member: Member) -> str:
        """Returns why the computers of an account are refused, in a word; empty if they are not."""
        reason = self.barring.reason(member.authenticator)
        if reason is Barred.DELETED:
            return "deleted"
        is_listed = member.authenticator in self.settings.host_rules.barred
        return "barred" if reason is not None or is_listed else ""

    def find(self, name: str) -> Member:
        """Returns the account with an e-mail address, a name or a key, whose first characters do."""
        found = self.members.with_name(name, LEAST_KEY)
        if not found:
            raise OrderFault(f"no account has the address, name or key {name}")
        if len(found) > 1:
            keys = ", ".join(shown_key(member.authenticator) for member in found[:10])
            raise OrderFault(f"{len(found)} accounts have this name: give the key, which begins with {keys}")
        return found[0]


def config_of(args: argparse.Namespace) -> Path:
    """Returns the settings of the bridge that the command line names."""
    if args.config is not None:
        return Path(args.config)
    name: str = args.project
    return file_of(Path(name) if "/" in name else PROJECTS / name)


def open_state(settings: Settings) -> State:
    """Opens the state file of a project."""
    if not settings.state.exists():
        raise OrderFault(f"{settings.state}: there is none: the bridge makes it at its first start")
    file = StateFile(settings.state, is_guest=True)
    return state_of(settings, file)


def state_of(settings: Settings, file: StateFile) -> State:
    """Returns a state file with what the commands need of it."""
    return State(settings, file, Members(file), Hosts(file), Barring(file), Teams(file))


# ---- Who there is


def row_of(state: State, member: Member, credit: int, hosts: int) -> dict[str, object]:
    """Returns an account as a row of the list."""
    return {
        "number": member.id,
        "key": shown_key(member.authenticator),
        "name": member.name,
        "address": member.email or "",
        "computers": hosts,
        "credit": credits_text(credit),
        "made": moment_text(member.created_at),
        "named": "yes" if member.is_exported else "",
        "state": state.barred(member),
    }


def members(state: State, args: argparse.Namespace) -> Iterator[str]:
    """Yields the accounts, as a table or as lines of JSON."""
    credits, counted = dict(state.hosts.user_credits()), state.hosts.counted_by_account()
    rows = [
        row_of(state, member, credits.get(member.authenticator, 0), counted.get(member.authenticator, 0))
        for member in state.members.all()
    ]
    if args.json:
        yield from (json.dumps(row) for row in rows)
    elif rows:
        yield from as_table([list(rows[0]), *([str(value) for value in row.values()] for row in rows)])


def as_table(rows: list[list[str]]) -> Iterator[str]:
    """Yields rows as lines whose columns are as wide as their widest field."""
    widths = [max(len(row[at]) for row in rows) for at in range(len(rows[0]))]
    for row in rows:
        yield "  ".join(field.ljust(width) for field, width in zip(row, widths)).rstrip()


def show(state: State, args: argparse.Namespace) -> Iterator[str]:
    """Yields what is known of an account and its computers. The key is shown whole."""
    member = state.find(args.account)
    heard = state.hosts.heard(MOST_HOSTS, member.authenticator)
    consent = "" if member.consent_at is None else moment_text(member.consent_at)
    facts = {
        "number": member.id,
        "key": member.authenticator,
        "name": member.name,
        "address": member.email or "none",
        "made": moment_text(member.created_at),
        "agreed to the terms": consent or "no",
        "may be named": "yes" if member.is_exported else "no",
        "is anonymous": "yes" if member.is_anonymous else "no",
        "credit": credits_text(heard[0].user_credit if heard else 0),
        "state": state.barred(member) or "good",
    }
    yield from (f"{name}: {value}" for name, value in facts.items())
    yield from (host_line(host) for host in heard)


def host_line(host: HeardHost) -> str:
    """Returns a computer in a line. bsched-tools host knows it by the number in the tables."""
    number = "-" if host.hostid is None else str(host.hostid)
    return (
        f"computer {number} ({host.scheduler_hostid} in the tables): "
        f"{credits_text(host.host_credit)} credit, "
        f"called last {moment_text(host.heard_at)}"
    )


def consented(state: State, args: argparse.Namespace) -> Iterator[str]:
    """Yields the accounts whose users agreed to be named, by key and name. As JSON it also has the accounts
    that were deleted and those of anonymous users, whose names in bsched's tables nobody should show.
    """
    barred = state.barring.all()
    for member in state.members.all():
        is_deleted = barred.get(member.authenticator) is Barred.DELETED
        is_agreed = member.is_exported and not is_deleted
        if args.json and (is_agreed or is_deleted or member.is_anonymous):
            row = {"authenticator": member.authenticator, "name": member.shown_name}
            yield json.dumps({**row, "is_deleted": is_deleted, "is_agreed": is_agreed})
        elif is_agreed and not args.json:
            yield csv_text([(member.authenticator, member.shown_name)]).removesuffix("\n")


def teams(state: State, args: argparse.Namespace) -> Iterator[str]:
    """Yields the teams, those with the most credit first, as a table or as lines of JSON. As JSON a team has
    the keys of its members."""
    found = state.teams.teams(0, MOST_TEAMS)
    if args.json:
        yield from (json.dumps(team_row(team, state.teams.keys(team))) for team in found)
    elif found:
        heads = ["number", "name", "founder", "members", "credit", "made"]
        yield from as_table([heads, *(team_fields(team) for team in found)])


def team_row(team: Team, keys: list[str]) -> dict[str, object]:
    """Returns a team, whose founder has the first of these keys, as a row of JSON."""
    row = {"number": team.number, "name": team.name, "created": team.created_at}
    return {**row, "founder": keys[0], "members": keys}


def team_fields(team: Team) -> list[str]:
    """Returns a team as a row of the list. The founder is a user's number."""
    counted = [str(team.founder), str(team.members), credits_text(team.credit)]
    return [str(team.number), team.name, *counted, moment_text(team.created_at)]


# ---- What the operator changes


def bar(state: State, args: argparse.Namespace) -> Iterator[str]:
    """Bars an account. A bridge that runs refuses its next call."""
    yield bar_account(state, args.account)


def bar_account(state: State, name: str) -> str:
    """Bars the account that somebody names, and returns what it is now."""
    member = state.find(name)
    state.barring.bar(member.authenticator, int(time.time()))
    return f"{member.name} ({shown_key(member.authenticator)}) is {state.barred(member)}"


def unbar(state: State, args: argparse.Namespace) -> Iterator[str]:
    """Ends the barring of an account."""
    yield unbar_account(state, args.account)


def unbar_account(state: State, name: str) -> str:
    """Ends the barring of the account that somebody names, and returns what it is now."""
    member = state.find(name)
    if state.barring.reason(member.authenticator) is Barred.DELETED:
        raise OrderFault("the account was deleted, and its user can make another one")
    if member.authenticator in state.settings.host_rules.barred:
        raise OrderFault("the key is in the list `barred` of bridge.toml: remove it there")
    state.barring.unbar(member.authenticator)
    when = "its computers ask again within 24 hours, or at once if the user presses Update"
    return f"{member.name} ({shown_key(member.authenticator)}) is not barred: {when}"


def is_agreed(question: str) -> bool:
    """Asks on the terminal, and returns whether the answer is yes."""
    try:
        return input(question).lower().startswith("y")
    except EOFError:
        return False


def delete(state: State, args: argparse.Namespace) -> Iterator[str]:
    """Deletes an account, after a question on a terminal."""
    member = state.find(args.account)
    shown = f"{member.name} ({shown_key(member.authenticator)}, {member.email or 'no address'})"
    if not args.yes:
        if not sys.stdin.isatty() or not is_agreed(f"Delete {shown} for good? [y/N] "):
            raise OrderFault("nothing was deleted: answer y, or give --yes")
    state.barring.delete(member.authenticator, int(time.time()))
    yield f"{shown} is deleted, and its key stays barred"


def copy(state: State, args: argparse.Namespace) -> Iterator[str]:
    """Copies the state file into a new file or a folder, while a bridge serves it."""
    made, nbytes = copied(state, args.to)
    yield f"{made}: {nbytes} bytes"
    if args.keep is not None and made.parent == args.to:
        with own_rights():
            removed = keep_newest(args.to, STATE_NAME, args.keep)
        yield from (f"removed {old}" for old in removed)


def copied(state: State, target: Path) -> tuple[Path, int]:
    """Copies a state file, and returns the copy with its size. It has the owner of the state file, and gets
    its name once it is whole and on the disk.

    If root copies, the folder of the copy may belong to another user, who can put links into it. SQLite
    follows links. So it makes the copy elsewhere, and the bytes go from there into a new file.
    """
    with own_rights():
        final = target / copy_name("bridge", time.time(), STATE) if target.is_dir() else target
        if os.path.lexists(final):
            raise OrderFault(f"{final}: it exists, and a copy is never written over another")
    owner = state.settings.state.stat()
    with tempfile.TemporaryDirectory(prefix="bsched-bridge-") as folder:
        whole = Path(folder) / "copy"
        make_private(whole)
        state.file.backup(whole)
        with whole.open("rb") as source, own_rights():
            return final, write_copy(source, final, owner)


AnyParser = TypeVar("AnyParser", bound=argparse.ArgumentParser)
Order = Callable[[State, argparse.Namespace], Iterator[str]]
ORDERS: dict[str, tuple[Order, str]] = {
    "members": (members, "lists the accounts"),
    "show": (show, "shows an account and its computers"),
    "bar": (bar, "refuses the computers of an account"),
    "unbar": (unbar, "ends that"),
    "delete": (delete, "deletes an account"),
    "copy": (copy, "copies the state file"),
    "consented": (consented, "lists the keys and names of users who agreed to be named"),
    "teams": (teams, "lists the teams"),
}


def add_orders(orders: "argparse._SubParsersAction[AnyParser]") -> None:
    """Adds the commands to the command line."""
    for name, (_, text) in ORDERS.items():
        parser = orders.add_parser(name, help=text)
        where = parser.add_mutually_exclusive_group(required=True)
        where.add_argument("--project", metavar="P", help="the name of a project of bsched-project")
        where.add_argument("--config", type=Path, metavar="FILE", help="the settings of the bridge")
        if name in ("show", "bar", "unbar", "delete"):
            parser.add_argument(
                "account", metavar="ACCOUNT", help="its address, its name, or the first characters of its key"
            )
        if name in ("members", "consented", "teams"):
            parser.add_argument("--json", action="store_true", help="lines of JSON")
        if name == "delete":
            parser.add_argument("--yes", action="store_true", help="without a question")
        if name == "copy":
            parser.add_argument(
                "--to", type=Path, required=True, metavar="G", help="a folder of copies, or a new file"
            )
            parser.add_argument("--keep", type=int, metavar="N", help="keeps N copies in the folder")


def run_order(args: argparse.Namespace) -> None:
    """Does what a command of the operator says."""
    order, _ = ORDERS[args.order]
    if getattr(args, "keep", None) is not None and args.keep < 1:
        raise OrderFault("--keep is a whole number of at least 1")
    settings = read_settings(config_of(args))
    with rights_of_owner(settings.state.parent):
        state = open_state(settings)
        try:
            for line in order(state, args):
                print(shown(line))
        finally:
            state.file.close()
