"""Passwords as the bridge keeps them.

BOINC's client does not send the password. It sends the MD5 of the password and the e-mail address, 32
hexadecimal digits. Whoever has these digits can log in, so they are treated like the password itself: only
their scrypt is kept.
"""
import hashlib
import hmac
import re
import secrets
import threading
from collections.abc import Iterator
from contextlib import contextmanager
from dataclasses import dataclass

from bsched_files.moments import MINUTE

from ..common.key_locks import Busy
from ..common.limits import ClientTurns, NetworkCounts

HASH = re.compile("[0-9a-f]{32}")
SALT_BYTES = 16
MOST_MEMORY = 2**26  # bytes; a hash takes 32 MB
AT_ONCE, WAITING = 2, 2
WAIT_SECONDS = 5.0
# For one client address, right or wrong: 5 seconds of a processor in a minute. So the owner of an account
# can't keep others from their log-ins.
MOST_HASHES = 40
MOST_OF_NETWORK = 80  # a tenth of what two at once take in a minute


class TooBusy(Exception):
    """Raised if the limit of passwords that are checked at once is reached."""


@dataclass(frozen=True, slots=True)
class Cost:
    """The parameters of scrypt."""

    n: int
    r: int
    p: int

    def text(self) -> str:
        """Returns the parameters as they are kept with a secret."""
        return f"scrypt {self.n} {self.r} {self.p}"


COST = Cost(2**15, 8, 1)  # 0.13 seconds


def read_cost(text: str) -> Cost:
    """Reads the parameters that were kept."""
    _, n, r, p = text.split()
    return Cost(int(n), int(r), int(p))


@dataclass(frozen=True, slots=True)
class Secret:
    """What is kept of a password."""

    salt: bytes
    digest: bytes
    cost: str


def client_hash(password: str, email: str) -> str:
    """Returns what BOINC's client sends for a password. The address must be in small letters."""
    return hashlib.md5((password + email).encode(), usedforsecurity=False).hexdigest()


def is_client_hash(passwd_hash: str, email: str) -> bool:
    """Returns whether a text is the hash of a password that is not empty."""
    return HASH.fullmatch(passwd_hash) is not None and passwd_hash != client_hash("", email)


def scrypt(passwd_hash: str, salt: bytes, cost: Cost) -> bytes:
    """Returns the scrypt of what a client sent."""
    return hashlib.scrypt(passwd_hash.encode(), salt=salt, n=cost.n, r=cost.r, p=cost.p, maxmem=MOST_MEMORY)


class Passwords:
    """Makes and checks secrets. It does at most two at once, since each takes memory and time.

    Only a few may wait for their turn, so that other messages find a free thread. One client has one turn at
    a time, and only so many in a minute. A wide network has no more than half of the turns at once.
    """

    def __init__(self, cost: Cost = COST) -> None:
        self.cost = cost
        self._unknown = Secret(secrets.token_bytes(SALT_BYTES), b"", cost.text())
        self._turns = threading.BoundedSemaphore(AT_ONCE)
        self._places = threading.BoundedSemaphore(AT_ONCE + WAITING)
        self._clients = ClientTurns()
        self._recent = NetworkCounts(MOST_HASHES, MINUTE, MOST_OF_NETWORK)

    @contextmanager
    def _turn(self, client: str) -> Iterator[None]:
        """Takes one of the few turns in which a hash is computed."""
        try:
            with self._clients.held(client), self._counted(client), self._place():
                yield
        except Busy:
            raise TooBusy from None

    @contextmanager
    def _counted(self, client: str) -> Iterator[None]:
        """Counts a hash for a client, before it waits for a place: one beyond its limit keeps nobody out. If
        there is no place, it does not count.
        """
        if not self._recent.take(client):
            raise TooBusy
        try:
            yield
        except TooBusy:
            self._recent.give_back(client)
            raise

    @contextmanager
    def _place(self) -> Iterator[None]:
        """Takes a place, and waits there for the turn."""
        if not self._places.acquire(blocking=False):
            raise TooBusy
        try:
            if not self._turns.acquire(timeout=WAIT_SECONDS):
                raise TooBusy
            try:
                yield
            finally:
                self._turns.release()
        finally:
            self._places.release()

    def new_secret(self, passwd_hash: str, client: str) -> Secret:
        """Returns what is kept of a new password that a client sent."""
        salt = secrets.token_bytes(SALT_BYTES)
        with self._turn(client):
            return Secret(salt, scrypt(passwd_hash, salt, self.cost), self.cost.text())

    def is_right(self, passwd_hash: str, secret: Secret | None, client: str) -> bool:
        """Returns whether a password that a client sent is the one that is kept. If none is kept, the answer
        is no, and takes the same time.
        """
        kept = secret or self._unknown
        with self._turn(client):
            return hmac.compare_digest(scrypt(passwd_hash, kept.salt, read_cost(kept.cost)), kept.digest)
