"""An attack: who attacks, what it does, and what it may cost."""
import threading
from collections.abc import Callable
from dataclasses import dataclass
from enum import StrEnum

from .figures import Most
from .target import Target


class Who(StrEnum):
    """Who attacks."""

    NOBODY = "nobody"
    STRANGER = "a stranger"
    NETWORK = "a network"  # of IPv6, of 48 bits
    MEMBER = "an account"
    OWNER = "the user of a project"  # as whom the bridge and bsched run
    OPERATOR = "the operator, by mistake"


class GotThrough(Exception):
    """Raised by an attack that did what no attack may do. The text says what."""


@dataclass(frozen=True, slots=True)
class Attack:
    """An attack."""

    name: str
    who: Who
    does: str  # in a sentence without its subject
    # attacks until the event is set, and returns what was seen. Raises GotThrough.
    run: Callable[[Target, threading.Event], str]
    may: Most = Most()
    attackers: int = 1  # addresses of strangers, or accounts, among which the processor's time is counted
    # the processor's time is counted for a whole minute from the beginning, with what may come at once
    is_by_minute: bool = False
    is_short: bool = (
        False  # it ends by itself, so nothing is counted by the minute and no volunteer comes meanwhile
    )
    is_slow: bool = False  # it takes long, so it runs only if it is asked for
    needs_ipv6: bool = False
    accounts: tuple[str, ...] = ()  # further ones of attackers
    prepare: Callable[[Target], None] | None = None  # changes the files of the project before it starts


def through(is_so: object, what: str) -> None:
    """Ends the attack if something is so."""
    if is_so:
        raise GotThrough(what)
