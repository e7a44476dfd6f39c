"""How many do something at once, how often and for how long somebody did it lately, and for whom a message
counts.
"""
import ipaddress
import threading
import time
from collections import OrderedDict, deque
from collections.abc import Callable, Hashable, Iterator
from contextlib import ExitStack, contextmanager

from .key_locks import KeyLocks

MOST_KEYS = 100_000
MOST_ACCOUNTS = 10_000  # whose seconds are counted
# how many times the limit of a client a network of 56 and of 48 bits has; one customer can have all of it
SITE = 48
WIDER = {56: 4, SITE: 10}
TURNS_OF_SITE = 2  # at once


class NoPlace(Exception):
    """Raised if all places are taken."""


class Places:
    """A few places, for what only so many may do at once. They may be some of the places of others."""

    def __init__(self, most: int, of: "Places | None" = None) -> None:
        self._places, self._of = threading.BoundedSemaphore(most), of

    def taken(self, wait_seconds: float = 0) -> "TakenPlace":
        """Takes a place for the block. If none is free, it waits for this many seconds at most."""
        return TakenPlace(self, wait_seconds)

    def take(self, wait_seconds: float) -> None:
        """Takes a place. Raises NoPlace."""
        if not self._places.acquire(timeout=wait_seconds):
            raise NoPlace
        try:
            if self._of is not None:
                self._of.take(wait_seconds)
        except BaseException:
            self._places.release()
            raise

    def give_back(self) -> None:
        """Gives a place back."""
        if self._of is not None:
            self._of.give_back()
        self._places.release()


class TakenPlace:
    """A place that is taken for a block."""

    __slots__ = ("_places", "_wait_seconds")

    def __init__(self, places: Places, wait_seconds: float) -> None:
        self._places, self._wait_seconds = places, wait_seconds

    def __enter__(self) -> None:
        self._places.take(self._wait_seconds)

    def __exit__(self, *_fault: object) -> None:
        self._places.give_back()


class RecentCounts:
    """Counts what each key did within the last seconds, and allows it no more than the limit.

    The counts are in memory, for at most MOST_KEYS keys. A further key takes the place of the one that did
    nothing for longest, so nobody is refused for what others do. Somebody with that many addresses can exceed
    the limit of one in any case.
    """

    def __init__(self, most: int, seconds: float, clock: Callable[[], float] = time.monotonic) -> None:
        self.most, self.seconds, self.clock = most, seconds, clock
        self._lock = threading.Lock()
        self._times: OrderedDict[Hashable, list[float]] = OrderedDict()

    def take(self, key: Hashable) -> bool:
        """Counts one more for a key. If the key has reached its limit, counts nothing and returns False."""
        with self._lock:
            now = self.clock()
            self._forget(now - self.seconds)
            times = self._times.get(key, [])
            while times and times[0] <= now - self.seconds:
                times.pop(0)
            if len(times) >= self.most:
                return False
            if key not in self._times and len(self._times) >= MOST_KEYS:
                self._times.popitem(last=False)
            times.append(now)
            self._times[key] = times
            self._times.move_to_end(key)
            return True

    def has(self, key: Hashable) -> bool:
        """Returns whether a key did something within the last seconds."""
        with self._lock:
            times = self._times.get(key)
            return times is not None and times[-1] > self.clock() - self.seconds

    def _forget(self, until: float) -> None:
        """Forgets the keys that did nothing since a moment. The one that did nothing for longest is first."""
        while self._times:
            key, times = next(iter(self._times.items()))
            if times[-1] > until:
                return
            del self._times[key]

    def give_back(self, key: Hashable) -> None:
        """Takes back the last count of a key."""
        with self._lock:
            times = self._times.get(key)
            if times:
                times.pop()
                if not times:
                    del self._times[key]


class UsedSeconds:
    """How many seconds something took for each account, within so many of the latest parts of time."""

    def __init__(self, clock: Callable[[], float], part_seconds: int, parts: int) -> None:
        self._clock, self.part_seconds, self.parts = clock, part_seconds, parts
        self._accounts: OrderedDict[str, deque[tuple[int, float]]] = OrderedDict()

    def add(self, account: str, seconds: float) -> None:
        """Adds seconds that something took."""
        part = int(self._clock() // self.part_seconds)
        parts = self._accounts.setdefault(account, deque(maxlen=self.parts + 1))
        self._accounts.move_to_end(account)
        if parts and parts[-1][0] == part:
            seconds += parts.pop()[1]
        parts.append((part, seconds))
        if len(self._accounts) > MOST_ACCOUNTS:
            self._accounts.popitem(last=False)

    def of(self, account: str) -> float:
        """Returns the seconds of an account."""
        first = int(self._clock() // self.part_seconds) - self.parts
        return sum(seconds for part, seconds in self._accounts.get(account, ()) if part > first)


class NetworkCounts(RecentCounts):
    """Counts what each client did, and what the networks of 56 and 48 bits did that have it. These are
    allowed some times the limit of a client, and no more than a limit of their own.
    """

    def __init__(
        self,
        most: int,
        seconds: float,
        most_of_network: int | None = None,
        clock: Callable[[], float] = time.monotonic,
    ) -> None:
        super().__init__(most, seconds, clock)
        self._wider = {}
        for bits, times in WIDER.items():
            allowed = most * times if most_of_network is None else min(most * times, most_of_network)
            self._wider[bits] = RecentCounts(max(most, allowed), seconds, lambda: self.clock())

    def take(self, key: Hashable) -> bool:
        """Counts one more for a client and its networks. If one of them has reached its limit, counts nothing
        and returns False.
        """
        if not super().take(key):
            return False
        taken: list[tuple[RecentCounts, str]] = []
        for bits, network in networks_above(key).items():
            if not self._wider[bits].take(network):
                super().give_back(key)
                for counts, one in taken:
                    counts.give_back(one)
                return False
            taken.append((self._wider[bits], network))
        return True

    def give_back(self, key: Hashable) -> None:
        """Takes back the last count of a client and its networks."""
        super().give_back(key)
        for bits, network in networks_above(key).items():
            self._wider[bits].give_back(network)


class ClientTurns:
    """One turn at a time for each client, and two for all clients of a network of 48 bits. So no network
    takes all places for itself.
    """

    def __init__(self) -> None:
        self._locks = KeyLocks(0)

    @contextmanager
    def held(self, client: str) -> Iterator[None]:
        """Has the turn of a client for the block. Raises Busy if it has one already."""
        with ExitStack() as stack:
            stack.enter_context(self._locks.held(client))
            site = networks_above(client).get(SITE)
            if site is not None:
                stack.enter_context(self._locks.held((site, hash(client) % TURNS_OF_SITE)))
            yield


def networks_above(client: Hashable) -> dict[int, str]:
    """Returns the wider networks of a client that is a network of 64 bits, by how many bits they have.
    Other clients have none that count.
    """
    try:
        network = ipaddress.IPv6Network(client)
    except ValueError:
        return {}
    return {bits: str(network.supernet(new_prefix=bits)) for bits in WIDER}


def network_of(address: str) -> str:
    """Returns whom an address counts as: itself, or its /64 if it is IPv6, since one user has a whole /64."""
    try:
        parsed = ipaddress.ip_address(address.partition("%")[0])
    except ValueError:
        return ""
    if isinstance(parsed, ipaddress.IPv4Address):
        return str(parsed)
    if parsed.ipv4_mapped is not None:
        return str(parsed.ipv4_mapped)
    return str(ipaddress.ip_network((parsed, 64), strict=False))


def is_loopback(address: str) -> bool:
    """Returns whether an address is one of this machine. A Unix socket has an empty address."""
    try:
        return address == "" or ipaddress.ip_address(address.partition("%")[0]).is_loopback
    except ValueError:
        return False
