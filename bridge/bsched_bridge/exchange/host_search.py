"""Which host of an account has a result, by bsched's statements (docs/PROFILE.md, "The statement of a host").

bsched acknowledges each reported name, also those of results that another host has: it can't record these. So
a client that does not send the number of its host reports nothing until it is known which host has the
results.
"""
from collections.abc import Iterable, Iterator

from bsched_files.moments import MINUTE

from ..common.limits import RecentCounts
from ..people.hosts import Hosts, Key
from ..scheduler.messages import NoAnswer, Scheduler

# Each search costs bsched two messages for each host. These limits are for each account.
MOST_SEARCHED = 50  # hosts in a search, those that called last
MOST_SEARCHES = 30


class TooManySearches(Exception):
    """Raised if clients of the account had as many searches in the last minute as they may have."""


class HostSearch:
    """Finds the hosts that have results."""

    def __init__(self, hosts: Hosts, scheduler: Scheduler, operator_key: str | None) -> None:
        self.hosts, self.scheduler, self.operator_key = hosts, scheduler, operator_key
        self._recent = RecentCounts(MOST_SEARCHES, MINUTE)

    def holders(self, first: Key, names: Iterable[str]) -> dict[str, Key]:
        """Returns for each result, as far as it is found, the host of the account that has it or had it. It
        looks at one host first, and ends once all results are found. Raises TooManySearches or NoAnswer.
        """
        wanted, found = set(names), dict[str, Key]()
        if not wanted or self.operator_key is None:
            return found
        if not self._recent.take(first.authenticator):
            raise TooManySearches
        for key in [first, *self.hosts.latest_keys(first.authenticator, MOST_SEARCHED)]:
            for name in self.held(key, wanted - found.keys()):
                found[name] = key
            if len(found) == len(wanted):
                break
        return found

    def held(self, key: Key, names: set[str]) -> set[str]:
        """Returns which of some results a host has, or had. bsched's number of the host may be from other
        tables, in which another host has it now. So bsched is asked first.
        """
        number = self.hosts.scheduler_hostid(key)
        if number is None or self.operator_key is None or not names:
            return set()
        if not self.scheduler.has_host(key.authenticator, key.host_cpid, number):
            return set()
        statement = self.scheduler.statement(number, self.operator_key)
        if statement is None:
            raise NoAnswer("the statement of a host is refused")
        return names & set(results_of(statement))


def results_of(statement: str) -> Iterator[str]:
    """Yields the names of the results in a statement. The first line is the header."""
    for line in statement.split("\n")[1:]:
        yield line.partition(",")[0]
