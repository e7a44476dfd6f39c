"""Calls that are large. A web server passes their bodies on as they come. So a body is received at the speed
of its client, before the call takes a place of the bridge.

Anybody can send such a call. So the bridge first reads its front, which has the account key. Nothing of a
body is on the disk before the account is known to exist. Then the body comes into a file without a name, in
the folder of the state file. Of an account only a few bodies come at once. Nor is the XML of a call of middle
size read before its account is known. While many calls of accounts come that somebody made up, this counts
for calls of all sizes: to read one, and to store it until bsched refuses it, takes longer than to ask.
"""
import logging
import re
import tempfile
import threading
import time
from collections import Counter, deque
from collections.abc import Callable, Iterator
from contextlib import contextmanager
from functools import partial
from pathlib import Path
from typing import Protocol, TypeGuard

from werkzeug.exceptions import BadRequest

from ..common.limits import NoPlace
from ..requests.client_requests import word_fault
from .answers import PutOff

# A web server has the whole body of a smaller call before it passes it on (packaging/nginx).
LARGE = 100_000  # bytes
SMALL = 16_384  # bytes of a call that is read before its account is known: reading them costs little
FRONT, FRONT_SECONDS = 65_536, 5.0  # BOINC's client begins with the account key
LEAST_RATE, MORE_SECONDS = 16_384, 30.0  # bytes a second of a body, and the seconds that it has besides
MOST_OF_ACCOUNT, MOST_AT_ONCE = 2, 16  # bodies that come at once
BLOCK = 65_536
MANY_STRANGERS, STRANGERS_SECONDS = 20, 60.0
KEY = re.compile(rb"<authenticator>[ \t\r\n]{0,64}([A-Za-z0-9_.-]{1,64})[ \t\r\n]{0,64}</authenticator>")

log = logging.getLogger(__name__)


class Stream(Protocol):
    """What gives the bytes of a body as they come."""

    def read_some(self, most: int, seconds: float) -> bytes:
        """Returns the next bytes as soon as some have come, or none at the end. Raises TimeoutError."""


def comes_slowly(stream: object, length: int) -> TypeGuard[Stream]:
    """Returns whether a body of a length comes at the speed of its client. Some servers read the whole body
    of each message first.
    """
    return length >= LARGE and hasattr(stream, "read_some")


class Refused(Exception):
    """Raised for a call whose body is not read. It has what the client reads."""

    def __init__(self, put_off: PutOff) -> None:
        super().__init__(str(put_off.message))
        self.put_off = put_off


class ComingBody:
    """A body that comes. Raises BadRequest if it comes too slowly, or breaks off."""

    def __init__(self, stream: Stream, length: int) -> None:
        self.stream, self.left = stream, length

    def some(self, ends: float) -> bytes:
        """Returns the next bytes, which come before a moment."""
        try:
            block = self.stream.read_some(min(BLOCK, self.left), ends - time.monotonic())
        except OSError:
            raise BadRequest from None
        if not block:
            raise BadRequest
        self.left -= len(block)
        return block

    def front(self) -> tuple[str, bytes]:
        """Returns the account key at the front of the body, and what was read so far."""
        front, ends = bytearray(), time.monotonic() + FRONT_SECONDS
        while self.left and len(front) < FRONT:
            front += self.some(ends)
            if (found := KEY.search(front)) is not None:
                return found[1].decode(), bytes(front)
        raise word_fault("authenticator")


class Strangers:
    """The latest calls of accounts that do not exist, or that could not be looked up."""

    def __init__(self) -> None:
        self._moments = deque[float](maxlen=MANY_STRANGERS)

    def add(self) -> None:
        """Counts a call."""
        self._moments.append(time.monotonic())

    def are_many(self) -> bool:
        """Returns whether many such calls came within the last minute."""
        moments = list(self._moments)
        return len(moments) == MANY_STRANGERS and time.monotonic() < moments[0] + STRANGERS_SECONDS


class LargeCalls:
    """Receives the bodies of large calls."""

    def __init__(self, folder: Path, refusal_of: Callable[[str], PutOff | None]) -> None:
        self.folder, self.refusal_of = folder, refusal_of
        self._lock, self._coming = threading.Lock(), Counter[str]()
        self.strangers = Strangers()

    def checked(self, blocks: Iterator[bytes], length: int) -> Iterator[bytes]:
        """Yields the blocks of a body that is there. Before the first one it raises Refused or RequestFault,
        unless the account of the call exists, or the call is small and few accounts are made up.
        """
        if length > SMALL or self.strangers.are_many():
            first = next(blocks)
            found = KEY.search(first)
            if found is not None:
                self._check(found[1].decode())
            elif length > SMALL:
                raise word_fault("authenticator")
            yield first
        yield from blocks

    def _check(self, authenticator: str) -> None:
        """Raises Refused for an account that is refused or does not exist."""
        refused = self.refusal_of(authenticator)
        if refused is not None:
            raise Refused(refused)

    @contextmanager
    def received(self, stream: Stream, length: int) -> Iterator[Iterator[bytes]]:
        """Yields the body of a call, once all of it has come. Raises Refused, RequestFault, NoPlace or
        BadRequest.
        """
        coming, ends = ComingBody(stream, length), time.monotonic() + MORE_SECONDS + length / LEAST_RATE
        authenticator, front = coming.front()
        self._check(authenticator)
        with self._turn(authenticator), tempfile.TemporaryFile(dir=self.folder) as file:
            block = front
            while True:
                try:
                    file.write(block)
                    file.flush()
                except OSError as fault:
                    log.error("a large call can't be stored: %s", fault)
                    raise NoPlace from None
                if not coming.left:
                    break
                block = coming.some(ends)
            file.seek(0)
            yield iter(partial(file.read, BLOCK), b"")

    @contextmanager
    def _turn(self, authenticator: str) -> Iterator[None]:
        """Has a turn of an account for the block. Raises NoPlace."""
        with self._lock:
            if self._coming[authenticator] >= MOST_OF_ACCOUNT or self._coming.total() >= MOST_AT_ONCE:
                raise NoPlace
            self._coming[authenticator] += 1
        try:
            yield
        finally:
            with self._lock:
                self._coming[authenticator] -= 1
                self._coming += Counter()  # drops those that have none
