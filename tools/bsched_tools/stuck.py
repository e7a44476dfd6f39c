"""Which open workunits are stuck, and why.

A workunit is *stuck* if it is open, nobody holds an instance of it, and no user with a computer can take one
of its unsent instances, by the rules of `docs/PROFILE.md` ("The grant"). A user can take one if no computer
of the user had an instance of it before, and one of them fits: by its platforms, memory, disk and speed.
While no computer has joined, nothing is stuck.
"""
from collections import defaultdict
from collections.abc import Iterator
from dataclasses import dataclass

from bsched_files.tables import Tables
from bsched_files.texts import shown
from bsched_files.workunits import IS_HELD

from .amounts import count_text
from .texts import main_line

MOST_OWNERS = 100  # a workunit has no more instances, so no more users can have had one
MOST_NAMED = 3
NOT_HELD = f"""
SELECT unit.id, unit.name, app.id, app.name, unit_mark.class, rsc_memory_bound, rsc_disk_bound, rsc_fpops_est,
  delay_bound
FROM unit JOIN app ON app.id = app_id JOIN unit_mark ON unit_mark.unit_id = unit.id
WHERE status = 0 AND NOT EXISTS (SELECT 1 FROM instance WHERE unit_id = unit.id AND {IS_HELD})
ORDER BY unit.id
"""
HOSTS = "SELECT account_id, platforms, fpops, memory, disk FROM host"
VERSIONS = """
SELECT app_id, platform, num, class FROM version JOIN version_class ON version_id = version.id ORDER BY num
"""
USERS = """
SELECT unit_id, account_id FROM unit JOIN instance ON unit_id = unit.id JOIN host ON host.id = host_id
WHERE status = 0
"""
ERRORS = "SELECT output FROM instance WHERE unit_id = ?1 AND outcome = 3 ORDER BY ifnull(place, 0), num"


@dataclass(frozen=True, slots=True)
class Stuck:
    """A stuck workunit."""

    name: str
    why: str  # for what it waits
    errors: int  # client errors
    last_error: str  # what the client said at the last one

    @property
    def text(self) -> str:
        """The workunit with its reason, for a person."""
        errors = ""
        if self.errors:
            last = "the last: " if self.errors > 1 else ""
            errors = f"; {count_text(self.errors, 'client error')}, {last}{self.last_error}"
        return f"{self.name} ({self.why}{errors})"


@dataclass(frozen=True, slots=True)
class Need:
    """What a workunit needs of a computer. Many workunits need the same."""

    app: int
    app_name: str
    version_class: str | None
    memory: int
    disk: int
    operations: int
    seconds: int  # until the deadline


@dataclass(frozen=True, slots=True)
class Computer:
    """What decides which workunits fit a computer."""

    user: int
    platforms: tuple[str, ...]
    speed: int
    memory: int
    disk: int


class Fitting:
    """Which users have a computer that fits."""

    def __init__(self, tables: Tables) -> None:
        rows = tables.rows(HOSTS)
        self.computers = [Computer(row[0], tuple(row[1].split(",")), *row[2:]) for row in rows]
        # the class of the newest version for each application and platform: greater numbers come later
        self.classes = {(app, platform): name for app, platform, _, name in tables.rows(VERSIONS)}
        self._users: dict[Need, frozenset[int]] = {}

    def has_version(self, computer: Computer, need: Need) -> bool:
        """Returns whether the newest version for a computer is of the class that is needed, if any is."""
        for platform in computer.platforms:
            if (need.app, platform) in self.classes:
                return need.version_class in (None, self.classes[need.app, platform])
        return False

    def fits(self, computer: Computer, need: Need) -> bool:
        """Returns whether a workunit fits a computer."""
        is_large = need.memory > computer.memory or need.disk > computer.disk
        return not is_large and is_in_time(computer, need) and self.has_version(computer, need)

    def users(self, need: Need) -> frozenset[int]:
        """Returns the users who have a computer that fits; of more than a workunit can have had, some."""
        if need not in self._users:
            users: set[int] = set()
            for one in self.computers:
                if one.user not in users and self.fits(one, need):
                    users.add(one.user)
                    if len(users) > MOST_OWNERS:
                        break
            self._users[need] = frozenset(users)
        return self._users[need]

    def why_none(self, need: Need) -> str:
        """Returns why no computer fits."""
        fit = [one for one in self.computers if self.has_version(one, need)]
        if not fit:
            if need.version_class is not None:
                return f"no computer's newest version of {need.app_name} has its class {need.version_class}"
            return f"no version of {need.app_name} is for the platform of any computer"
        if all(one.memory < need.memory for one in fit):
            return "it needs more memory than any computer has"
        if all(one.disk < need.disk for one in fit):
            return "it needs more free disk than any computer has"
        if not any(is_in_time(one, need) for one in fit):
            return "no computer can end it before its deadline"
        return "no computer has the memory, the disk and the speed that it needs"


def is_in_time(computer: Computer, need: Need) -> bool:
    """Returns whether a computer's estimate is at most the time until the deadline."""
    return max(1, -(-need.operations // computer.speed)) <= need.seconds


def stuck_in(tables: Tables, names: set[str] | None = None) -> Iterator[Stuck]:
    """Yields the stuck workunits in the order of import: those with these names, or all."""
    fitting = Fitting(tables)
    if not fitting.computers:
        return
    had: defaultdict[int, set[int]] = defaultdict(set)  # the users who had an instance of an open workunit
    for number, user in tables.rows(USERS):
        had[number].add(user)
    for number, name, app, app_name, *more in tables.rows(NOT_HELD):
        if names is not None and name not in names:
            continue
        need = Need(app, app_name, *more)
        users = fitting.users(need)
        if len(users) <= MOST_OWNERS and users <= had.get(number, set()):
            yield stuck_of(tables, number, name, fitting.why_none(need) if not users else None)


def stuck_of(tables: Tables, number: int, name: str, why: str | None) -> Stuck:
    """Returns a stuck workunit; without a reason it waits for a further user."""
    errors = [output or "" for output, in tables.rows(ERRORS, number)]
    last = shown(main_line(errors[-1])) if errors else ""
    return Stuck(name, why or "it waits for a computer of a further user", len(errors), last)


def named(stuck: list[Stuck]) -> str:
    """Returns the first stuck workunits with their reasons, and counts the others."""
    texts = [one.text for one in stuck[:MOST_NAMED]]
    if more := len(stuck) - len(texts):
        texts.append(f"and {more:,} more")
    return ", ".join(texts)
