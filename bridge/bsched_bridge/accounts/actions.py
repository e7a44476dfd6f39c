"""Accounts that volunteers make: checks, limits, and the import into bsched.

bsched has an account, exactly once, before anybody gets its key. First the bridge writes the account's row to
the disk, with its key and the name of an import. Then it sends the import. bsched counts an import of one
name once, so the bridge sends the same bytes again until an answer comes. The next message about the account
does that, or the resending of open messages. Only then does the client get the key.
"""
import logging
import re
import secrets
import time
from collections.abc import Iterator
from contextlib import ExitStack, contextmanager
from dataclasses import dataclass
from enum import Enum

from bsched_files.moments import DAY, HOUR
from bsched_files.project_settings import AccountSettings
from bsched_files.texts import WORD

from ..common.key_locks import Busy, KeyLocks
from ..common.languages import gettext_noop
from ..common.limits import ClientTurns, NetworkCounts, NoPlace, Places, RecentCounts
from ..common.words import shown_key
from ..people.barring import Barred, Barring
from ..people.members import DayIsFull, EmailTaken, Member, Members
from ..people.names import clean_name
from ..people.passwords import Passwords, TooBusy, is_client_hash
from ..scheduler.messages import NoAnswer, Refusal, Scheduler

MOST_WRONG_PASSWORDS = 10  # in an hour, for each client address and for each e-mail address
NETWORK_SHARE = 10  # no wide network makes more than this part of a day's accounts
MOST_EMAIL = 254  # characters
# what the Manager accepts as an e-mail address; its wizard never ends if the project refuses such an address
MANAGER_EMAIL = re.compile(r"[^@]+@[^@.]+\.[^@]{2,}")
NO_EMAIL = re.compile(r"[\s\x00-\x1f\x7f\ufffd]")
WAIT_SECONDS = 3.0  # for another message about the same address

log = logging.getLogger(__name__)


class Fault(Enum):
    """Why a message about an account fails: BOINC's number for clients, and a text for people.

    With some other numbers the Manager's wizard never ends. Nor does it with -205 for an address that the
    Manager accepts.
    """

    WRONG = -155, gettext_noop("No account has this e-mail address and password.")
    WRONG_KEY = -155, gettext_noop("No account has this key.")
    NO_ANSWER = -183, gettext_noop("The project gives no answer at the moment. Try again in a few minutes.")
    TOO_BUSY = -183, gettext_noop("The project is busy at the moment. Try again in a minute.")
    TOO_MANY = -183, gettext_noop("Too many wrong passwords or keys. Try again in an hour.")
    NO_ADDRESS = -205, gettext_noop("This is not an e-mail address.")
    NO_PASSWORD = -206, gettext_noop("Give a password.")
    TAKEN = -207, gettext_noop("Another account has this e-mail address.")
    ODD_ADDRESS = -208, gettext_noop("The project can't use this e-mail address.")
    DAY_FULL = -208, gettext_noop("The project takes no more new accounts today. Try again tomorrow.")
    NETWORK_FULL = -208, gettext_noop(
        "Too many accounts were made from your network today. Use the one that you have, or try again "
        "tomorrow."
    )
    PROJECT_FULL = -208, gettext_noop("The project has as many accounts as it can have.")
    NO_CREATION = -208, gettext_noop("Only the project's operator makes accounts.")
    NO_CONSENT = -242, gettext_noop("Agree to the project's terms of use to make an account.")

    @property
    def number(self) -> int:
        """The number for clients."""
        return self.value[0]

    @property
    def text(self) -> str:
        """The text for people, in English."""
        return self.value[1]


# A creation fails so only if its address has no account. It is counted like a wrong password, so nobody can
# ask about many addresses.
SAY_FREE = {Fault.NO_CONSENT, Fault.NETWORK_FULL, Fault.DAY_FULL, Fault.PROJECT_FULL}


class AccountFault(Exception):
    """Raised if a message about an account fails."""

    def __init__(self, fault: Fault) -> None:
        super().__init__(fault.text)
        self.fault = fault


def is_email(email: str) -> bool:
    """Returns whether a text looks like an e-mail address."""
    return bool(MANAGER_EMAIL.fullmatch(email)) and not NO_EMAIL.search(email) and len(email) <= MOST_EMAIL


def made_name() -> str:
    """Returns a name that says nothing about the volunteer."""
    return f"volunteer-{secrets.randbelow(10**6):06}"


def account_import(member: Member) -> bytes:
    """Returns the import of an account. It follows from the account's row alone, so it is always the same."""
    name = member.name.replace('"', '""')
    return f'authenticator,name\n{member.authenticator},"{name}"\n'.encode()


class AccountPlaces:
    """The few places for messages about accounts, so that clients' calls still find a free thread. A client
    has one at a time, and a network of 48 bits has two. So nobody can take all of them, for example by
    messages that wait for one another.
    """

    def __init__(self, places: Places) -> None:
        self.places, self._clients = places, ClientTurns()

    @contextmanager
    def taken(self, client: str | None) -> Iterator[None]:
        """Takes a place for a message of a client. If the client is not known, it may have several."""
        with ExitStack() as stack:
            try:
                if client is not None:
                    stack.enter_context(self._clients.held(client))
                stack.enter_context(self.places.taken())
            except (Busy, NoPlace):
                raise AccountFault(Fault.TOO_BUSY) from None
            yield


@dataclass(slots=True)
class Attempt:
    """An attempt with a password or a key."""

    is_wrong: bool = False


class Accounts:
    """Makes accounts and finds them. Each message about them has one of the AccountPlaces."""

    def __init__(
        self,
        settings: AccountSettings,
        members: Members,
        scheduler: Scheduler,
        operator_key: str,
        passwords: Passwords,
        barring: Barring,
    ):
        self.settings, self.members, self.scheduler, self.passwords = settings, members, scheduler, passwords
        self.barring = barring
        self._operator_key = operator_key
        self._locks = KeyLocks(WAIT_SECONDS)
        self._new = NetworkCounts(settings.most_from_address, DAY, settings.most_a_day // NETWORK_SHARE)
        # A wrong key costs nothing, so the counts of somebody's many networks may push out others. Those of
        # e-mail addresses are apart: each costs a hash, and an hour is too short for MOST_KEYS of them.
        self._wrong = {who: RecentCounts(MOST_WRONG_PASSWORDS, HOUR) for who in ("email", "key")}
        self._wrong["client"] = NetworkCounts(MOST_WRONG_PASSWORDS, HOUR)

    # ---- What clients ask for

    def create(self, email: str, passwd_hash: str, name: str, has_consent: bool, client: str) -> Member:
        """Returns a new account. If the address has one already and the password is right, it returns that
        one.
        """
        if not MANAGER_EMAIL.fullmatch(email):
            raise AccountFault(Fault.NO_ADDRESS)
        if not is_email(email):
            raise AccountFault(Fault.ODD_ADDRESS)
        if not is_client_hash(passwd_hash, email):
            raise AccountFault(Fault.NO_PASSWORD)
        with self._held(email):
            member = self.members.of_email(email)
            if member is None:
                with self._attempted(("client", client)) as attempt:
                    try:
                        return self._make(email, passwd_hash, name, has_consent, client)
                    except AccountFault as fault:
                        attempt.is_wrong = fault.fault in SAY_FREE
                        raise
            if not self._is_right(email, passwd_hash, member, client):
                raise AccountFault(Fault.TAKEN)
            return self._finish(member)

    def look_up(self, email: str, passwd_hash: str, client: str) -> Member:
        """Returns the account with this address and password."""
        if not is_email(email) or not is_client_hash(passwd_hash, email):
            raise AccountFault(Fault.WRONG)
        with self._held(email):
            member = self.members.of_email(email)
            if not self._is_right(email, passwd_hash, member, client) or member is None:
                raise AccountFault(Fault.WRONG)
            return self._finish(member)

    @contextmanager
    def _held(self, email: str) -> Iterator[None]:
        """Holds an address for the block."""
        try:
            with self._locks.held(email):
                yield
        except (Busy, TooBusy):
            raise AccountFault(Fault.TOO_BUSY) from None

    def of_key(self, authenticator: str) -> Member | None:
        """Returns the account with a key, if the bridge knows it and bsched has it."""
        member = self.members.of_key(authenticator) if WORD.fullmatch(authenticator) else None
        if member is None or not member.is_imported or self.is_deleted(authenticator):
            return None
        return member

    def is_deleted(self, authenticator: str) -> bool:
        """Returns whether the account with a key was deleted."""
        return self.barring.reason(authenticator) is Barred.DELETED

    def set_password(self, authenticator: str, email: str, passwd_hash: str, client: str) -> Member:
        """Sets the address and the password of an account, and returns it. The owner sends the key."""
        member = self.of_owner(authenticator, client)
        with self._held(email), self._attempted(("client", client), ("key", authenticator)) as attempt:
            try:
                other = self.members.of_email(email)
                if other is not None and other.id != member.id:
                    raise EmailTaken
                self.members.set_password(member, email, self.passwords.new_secret(passwd_hash, client))
            except EmailTaken:
                attempt.is_wrong = True  # it says that the address has an account
                raise AccountFault(Fault.TAKEN) from None
        if self.is_deleted(authenticator):  # by another message, just now: then nothing was set
            raise AccountFault(Fault.WRONG_KEY)
        return member

    def delete(self, email: str, passwd_hash: str, client: str) -> None:
        """Deletes the account with an address and a password: its key is barred, and its user forgotten."""
        member = self.look_up(email, passwd_hash, client)
        with self._held(email):
            again = self.members.of_email(email)
            if again is None or again.authenticator != member.authenticator:
                raise AccountFault(Fault.WRONG)
            self.barring.delete(member.authenticator, int(time.time()))

    def of_owner(self, authenticator: str, client: str) -> Member:
        """Returns the account with a key that somebody sends. After too many wrong keys it refuses."""
        with self.wrong_keys_counted(client):
            member = self.of_key(authenticator)
            if member is None:
                raise AccountFault(Fault.WRONG_KEY)
            return member

    @contextmanager
    def wrong_keys_counted(self, client: str) -> Iterator[None]:
        """Counts one more wrong key for a client if the block ends with that fault. After too many of them it
        refuses the client.
        """
        with self._attempted(("client", client)) as attempt:
            try:
                yield
            except AccountFault as fault:
                attempt.is_wrong = fault.fault is Fault.WRONG_KEY
                raise

    def _is_right(self, email: str, passwd_hash: str, member: Member | None, client: str) -> bool:
        """Returns whether a password is that of an account. Wrong ones are counted for the client and for the
        address.
        """
        with self._attempted(("client", client), ("email", email)) as attempt:
            attempt.is_wrong = not self.passwords.is_right(
                passwd_hash, None if member is None else member.secret, client
            )
        return not attempt.is_wrong

    @contextmanager
    def _attempted(self, *keys: tuple[str, str]) -> Iterator[Attempt]:
        """Counts one more wrong password for each key, if the block says that it was wrong. If a key has too
        many of them, it refuses before the block, and counts nothing.
        """
        taken: list[tuple[str, str]] = []
        attempt = Attempt()
        try:
            for who, name in keys:
                if not self._wrong[who].take(name):
                    raise AccountFault(Fault.TOO_MANY)
                taken.append((who, name))
            yield attempt
        finally:
            if not attempt.is_wrong:
                for who, name in taken:
                    self._wrong[who].give_back(name)

    # ---- A new account

    def _make(self, email: str, passwd_hash: str, name: str, has_consent: bool, client: str) -> Member:
        """Makes a new account, within the limits."""
        if self.settings.terms is not None and not has_consent:
            raise AccountFault(Fault.NO_CONSENT)
        if not self._new.take(client):
            raise AccountFault(Fault.NETWORK_FULL)
        is_row = False
        try:
            row = self._new_row(email, passwd_hash, name, has_consent, client)
            is_row = True
            return self._finish(row)
        except AccountFault as fault:
            is_row = is_row and fault.fault is not Fault.PROJECT_FULL
            raise
        finally:
            if not is_row:
                self._new.give_back(client)

    def _new_row(self, email: str, passwd_hash: str, name: str, has_consent: bool, client: str) -> Member:
        """Inserts the row of a new account, within the limit for a day."""
        chosen = (clean_name(name) if self.settings.is_name_told else "") or made_name()
        now, most = int(time.time()), self.settings.most_a_day
        try:
            if self.members.is_day_full(now, most):  # checked before the costly hash; insert counts again
                raise DayIsFull
            secret = self.passwords.new_secret(passwd_hash, client)
            return self.members.insert(email, secret, chosen, has_consent, now, most)
        except DayIsFull:
            log.warning("%d accounts were made in 24 hours, so no more are made now", most)
            raise AccountFault(Fault.DAY_FULL) from None

    def _finish(self, member: Member) -> Member:
        """Returns the account once bsched has it. If that is not known, it raises a fault, so nobody gets the
        key.
        """
        if member.is_imported:
            return member
        try:
            self._import(member)
        except NoAnswer as failure:
            log.warning(
                "no answer of bsched to the import of account %s: %s",
                shown_key(member.authenticator),
                failure,
            )
            raise AccountFault(Fault.NO_ANSWER) from None
        return member

    def _import(self, member: Member) -> None:
        """Imports an account. If it was imported before, nothing changes."""
        refusal = self._refusal_of(member)
        if refusal is not None and refusal.error == "batch_reused":
            refusal = self._refusal_of(self.members.with_new_batch(member))
        if refusal is None or refusal.error == "duplicate_name":  # the key is random, so it is this account
            if not member.is_imported:
                self.members.mark_imported(member)
            return
        if refusal.error == "table_full" and not member.is_imported:
            self.members.delete(member)
            log.error("no account can be made: bsched has as many as it can have")
            raise AccountFault(Fault.PROJECT_FULL)
        # an earlier import may have counted, so the row stays
        log.error(
            "bsched refuses the import of account %s as %s", shown_key(member.authenticator), refusal.error
        )
        raise AccountFault(Fault.NO_ANSWER)

    def _refusal_of(self, member: Member) -> Refusal | None:
        """Sends the import of an account, and returns its refusal, or None if bsched has the account."""
        if member.batch is None:
            raise ValueError("the operator imports this account")
        return self.scheduler.import_accounts(member.batch, account_import(member), self._operator_key)

    # ---- Resending

    def resend_open(self) -> None:
        """Sends every import without an answer again. Raises NoAnswer at the first that gets none again."""
        for member in self.members.open_ones():
            try:
                with self._locks.held(member.email):
                    again = self.members.of_key(member.authenticator)
                    if again is not None and not again.is_imported:
                        self._import(again)
            except (AccountFault, Busy):
                continue  # the import was refused, or another message holds the address

    def import_again(self, authenticator: str) -> bool:
        """Imports an account again that bsched no longer knows, for example after its tables were restored
        from an older copy. Returns whether bsched has it now.
        """
        member = self.members.of_key(authenticator)
        if member is None or member.batch is None:
            return False
        log.warning("bsched does not know account %s any more, and gets it again", shown_key(authenticator))
        try:
            self._import(member)
        except AccountFault:
            return False
        return True
