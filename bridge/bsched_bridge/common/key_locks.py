"""Locks by key: one request of a client at a time."""
import threading
from collections.abc import Hashable


class Busy(Exception):
    """Raised if somebody else holds the key and does not release it in time."""


class KeyLocks:
    """A lock for each key that is in use, and none for the others."""

    def __init__(self, wait_seconds: float) -> None:
        self.wait_seconds = wait_seconds
        self._guard = threading.Lock()
        self._locks: dict[Hashable, tuple[threading.Lock, int]] = {}  # with how many hold it or wait for it

    def _count(self, key: Hashable, step: int) -> threading.Lock:
        """Returns the lock of a key, and adds step to the number of its users."""
        with self._guard:
            lock, users = self._locks.get(key) or (threading.Lock(), 0)
            if users + step:
                self._locks[key] = lock, users + step
            else:
                del self._locks[key]
            return lock

    def held(self, key: Hashable) -> "HeldKey":
        """Holds the key for the block of a `with` statement. Raises Busy."""
        return HeldKey(self, key)

    def take(self, key: Hashable) -> threading.Lock:
        """Takes the key, and returns its lock."""
        lock = self._count(key, 1)
        try:
            if lock.acquire(timeout=self.wait_seconds):
                return lock
        except BaseException:
            self._count(key, -1)
            raise
        self._count(key, -1)
        raise Busy

    def give_back(self, key: Hashable, lock: threading.Lock) -> None:
        """Gives the key back."""
        lock.release()
        self._count(key, -1)


class HeldKey:
    """Holds a key for a block."""

    __slots__ = ("_locks", "_key", "_lock")

    def __init__(self, locks: KeyLocks, key: Hashable) -> None:
        self._locks, self._key = locks, key

    def __enter__(self) -> None:
        self._lock = self._locks.take(self._key)

    def __exit__(self, *_fault: object) -> None:
        self._locks.give_back(self._key, self._lock)
