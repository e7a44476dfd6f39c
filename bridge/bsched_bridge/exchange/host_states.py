"""The states of hosts: what must outlive a stop of the bridge, and what of it is only in memory yet.

For each key the state file has the number of its last call. Until an answer comes it also has the bytes of
that call. Both are on the disk before the call is sent. It also has the jobs in hand, which the client may
lack: those of an answer that came when no client waited for it any more, and those of the latest reply.

A state is a value. `of_number` and `begin` read it, `open` returns it with an open call, and `answered`
closes that call. All but `of_number` need the lock of the key.
"""
import json
import logging
import sqlite3
import threading
import time
from collections.abc import Callable, Container, Iterable, Iterator
from contextlib import contextmanager
from dataclasses import dataclass, fields, replace
from operator import attrgetter
from typing import cast

from bsched_files.moments import DAY

from ..common.state_file import StateFile
from ..people.archives import Archives
from ..people.barring import Barred
from ..people.credit_days import HOST_TABLE, MEMBER_TABLE, StoredDay
from ..people.hosts import COUNTED, MOST_NUMBER, SERVED, Key, lose_number, new_hostid
from ..people.members import first_heard, store_credit, store_file_credit
from ..requests.calls import listed_names
from ..scheduler.messages import Job, Reply, members_of_job

# how long an answer is only in memory at most, while Flushing runs, and of how many hosts
FLUSH_SECONDS, MOST_UNWRITTEN = 1.0, 1000
# what a state has of the account, with the credit of a day (?1)
ACCOUNT = "member.id, member.name, team.name, member.preferences, member.credit, member_day.credit"
OF_ACCOUNT = (
    "LEFT JOIN team ON team.id = member.team "
    "LEFT JOIN member_day ON member_day.member = member.id AND member_day.day = ?1"
)
STATE = (
    "SELECT host.id, host.host_cpid, coalesce(client_seqno, 0), "
    "(SELECT is_deleted FROM barred WHERE barred.authenticator = host.authenticator), "
    "last_number, open_call, jobs_in_hand, scheduler_hostid IS NOT NULL, host.hostid, host_day.credit, "
    f"{ACCOUNT} "
    f"FROM host LEFT JOIN host_file ON host_file.host = host.id AND host_file.file = {SERVED} "
    "LEFT JOIN host_day ON host_day.hostid = host.hostid AND host_day.day = ?1 "
    f"LEFT JOIN member ON member.authenticator = host.authenticator {OF_ACCOUNT}"
)
OF_KEY = f"{STATE} WHERE host.authenticator = ?2 AND host.host_cpid = ?3"
OF_NUMBER = f"{STATE} WHERE host.authenticator = ?2 AND host.hostid = ?3"
OF_NEW_KEY = f"SELECT {ACCOUNT} FROM member {OF_ACCOUNT} WHERE member.authenticator = ?2"
NEW_HOST = (
    "INSERT INTO host (authenticator, host_cpid, client_seqno, copy_of) VALUES (?, ?, ?, ?) "
    "ON CONFLICT DO NOTHING RETURNING id"
)
NEW_IN_FILE = (
    "INSERT INTO host_file (host, file, last_number, open_call) SELECT id, ?2, ?3, ?4 FROM host "
    "WHERE id = ?1 ON CONFLICT DO NOTHING"
)
OPENED = (
    "UPDATE host_file SET last_number = ?, open_call = ? WHERE host = ? AND file = ? AND last_number = ? "
    "AND jobs_in_hand = ? AND open_call IS NULL AND (scheduler_hostid IS NOT NULL) = ?"
)
COUNTED_BY_CLIENT = "UPDATE host SET client_seqno = ?1 WHERE id = ?2 AND ?1 > ifnull(client_seqno, -1)"
# bsched's number of the host is nearly always the one that is stored, so its index is left alone
ANSWERED = (
    "UPDATE host_file SET open_call = NULL, jobs_in_hand = ?, jobs = ?, credit = ?, called_at = ? "
    "WHERE host = ? AND file = ? AND scheduler_hostid = ?"
)
HEARD = (
    "UPDATE host SET user_name = ?, user_credit = ?, host_credit = ?, heard_at = ?, "
    "about = coalesce(?, about) WHERE id = ?"
)
HAS_HOST = "SELECT 1 FROM host WHERE authenticator = ? AND host_cpid = ?"
NUMBERED = "UPDATE host_file SET scheduler_hostid = ? WHERE host = ? AND file = ?"
SAME_NUMBER = (
    "SELECT host FROM host_file JOIN host ON host.id = host_file.host "
    "WHERE file = ? AND scheduler_hostid = ? AND host <> ? AND authenticator = ?"
)
# a host that bsched has in no file, and that no client has the number of
FORGET = (
    "DELETE FROM host WHERE id = ?1 AND hostid IS NULL AND NOT EXISTS (SELECT 1 FROM host_file "
    "WHERE host = ?1 AND (scheduler_hostid IS NOT NULL OR (file <> ?2 AND open_call IS NOT NULL)))"
)
JOB_MEMBERS = [member.name for member in fields(Job)]
values_of_job = attrgetter(*JOB_MEMBERS)
_written = json.JSONEncoder().encode
# Open calls of accounts that the bridge does not know. Somebody may have made these accounts up, and each
# call takes up to 262,144 bytes of the disk until bsched answers.
MOST_OF_STRANGERS = 32

Place = tuple[str, int]  # an account and the hostid that a client of it was told

log = logging.getLogger(__name__)


class CountEnded(Exception):
    """Raised if a key has used its last number."""


class StateChanged(Exception):
    """Raised if the state file has another state of a key by now."""


class TooManyHosts(Exception):
    """Raised for a new key of an account that already has as many hosts as it may have."""

    def __init__(self, count: int) -> None:
        super().__init__(f"the account has {count} hosts")
        self.count = count


@dataclass(frozen=True, slots=True)
class ClientState:
    """What a client's request says about its number, which is stored with the call."""

    seqno: int | None = None  # the client's rpc_seqno, if it sent the number that it was given
    copy_of: int | None = None  # the hostid of the host that the client is a copy of


@dataclass(frozen=True, slots=True)
class AccountState:
    """An account that the bridge knows."""

    name: str
    team: str | None  # the name of the user's team
    preferences: str | None  # for the user's clients, as they are stored
    credit: int | None  # by the latest reply to one of its hosts
    day: StoredDay


@dataclass(frozen=True, slots=True)
class FileState:
    """A host in a file of the project: its calls to the bsched that serves this file."""

    is_stored: bool = False  # whether the state file has the host in the file
    last_number: int = 0  # of its calls
    open_call: bytes | None = None  # that has no answer yet
    jobs_text: str = "[]"  # the jobs in hand, as they are stored
    has_host: bool = False  # whether bsched has the host, by its last reply


@dataclass(frozen=True, slots=True)
class HostState:
    """A host under its key, and its account."""

    key: Key
    id: int | None = None  # in the state file; None if it does not have the key
    client_seqno: int = 0  # the client's rpc_seqno in its last request with the host's number
    barred: Barred | None = None  # why the computers of the account are refused, or None
    day: StoredDay | None = None  # None if no client has the host's number
    account: AccountState | None = None  # None if the bridge does not know the account
    in_file: FileState = FileState()

    @property
    def is_of_stranger(self) -> bool:
        """Whether the bridge knows neither the host nor its account."""
        return not self.in_file.has_host and self.day is None and self.account is None

    @property
    def is_settled(self) -> bool:
        """Whether bsched has the host, and has answered its last call."""
        return self.in_file.has_host and self.in_file.open_call is None

    @property
    def place(self) -> Place | None:
        """The account and the number of the host, or None if no client has its number."""
        return None if self.day is None else (self.key.authenticator, self.day.number)

    @property
    def jobs_in_hand(self) -> list[Job]:
        """The jobs that the client may lack."""
        return self.jobs_but(())

    def jobs_but(self, names: Container[str]) -> list[Job]:
        """Returns the jobs that the client may lack, without those of some names."""
        jobs = json.loads(self.in_file.jobs_text)
        return [Job(*members_of_job(job)) for job in jobs if job["name"] not in names]

    # The next two make each part by its class: `replace` takes several times as long, and a call needs five.

    def opened(self, number: int, call: bytes, seqno: int | None) -> "HostState":
        """Returns the state with an open call."""
        in_file = FileState(True, number, call, self.in_file.jobs_text, self.in_file.has_host)
        seqno = self.client_seqno if seqno is None else max(self.client_seqno, seqno)
        return HostState(self.key, self.id, seqno, self.barred, self.day, self.account, in_file)

    def answered(self, reply: Reply, jobs_text: str, day: int) -> "HostState":
        """Returns the state after the reply to the open call."""
        in_file = FileState(True, self.in_file.last_number, None, jobs_text, True)
        of_host, account, credit = self.day, self.account, reply.user_total_credit
        if of_host is not None:
            of_host = StoredDay(of_host.number, day, reply.host_total_credit)
        if account is not None:
            of_account = StoredDay(account.day.number, day, credit)
            account = AccountState(account.name, account.team, account.preferences, credit, of_account)
        return HostState(self.key, self.id, self.client_seqno, self.barred, of_host, account, in_file)


def account_of(row: tuple[object, ...], day: int) -> AccountState | None:
    """Returns the account in the columns of ACCOUNT, which were read for a day."""
    if row[0] is None:
        return None
    number, name, team, preferences, credit, credit_of_day = cast(
        "tuple[int, str, str | None, str | None, int | None, int | None]", row
    )
    return AccountState(name, team, preferences, credit, StoredDay(number, day, credit_of_day))


def state_of(authenticator: str, row: tuple[object, ...], day: int) -> HostState:
    """Returns the state in the columns of STATE, which were read for a day."""
    host, host_cpid, seqno, is_deleted, number, call, jobs, has_host, hostid, credit = row[:10]
    in_file = FileState()
    if number is not None:
        in_file = FileState(
            True, cast(int, number), cast("bytes | None", call), cast(str, jobs), bool(has_host)
        )
    return HostState(
        Key(authenticator, cast(str, host_cpid)),
        cast(int, host),
        cast(int, seqno),
        None if is_deleted is None else Barred(is_deleted),
        None if hostid is None else StoredDay(cast(int, hostid), day, cast("int | None", credit)),
        account_of(row[10:], day),
        in_file,
    )


def today() -> int:
    """Returns the day, in UTC, since 1970."""
    return int(time.time()) // DAY


def text_of_jobs(jobs: Iterable[Job]) -> str:
    """Returns jobs as they are stored."""
    return _written([dict(zip(JOB_MEMBERS, values_of_job(job))) for job in jobs])


def text_of_names(call: bytes, reply: Reply) -> str:
    """Returns the names of the jobs of a file that a client may have after a call, with blanks between them:
    those that the call lists and those of its reply, but for those that the reply aborts. There are none if
    the call has no list. The same call with its kept reply gives the same names.
    """
    listed = listed_names(call)
    if listed is None:
        return ""
    names = dict.fromkeys([*listed, *(job.name for job in reply.results)])
    return " ".join(name for name in names if name not in reply.result_abort)


@dataclass(frozen=True, slots=True)
class FileCredit:
    """Credit in the served file."""

    host: int
    account: int


@dataclass(slots=True)
class Unwritten:
    """What the state file does not have yet of an answer to a host's call."""

    state: HostState  # after the answer
    stored: HostState  # with the credit that the file has
    reply: Reply
    names: str  # of the jobs that the client may have
    in_file: FileCredit
    about: str | None
    now: int
    has_answer: bool = True  # false: the file has the host's calls and its jobs, and lacks the rest

    def write(self, connection: sqlite3.Connection) -> None:
        """Writes all of it, within a transaction."""
        if self.has_answer:
            self.write_answer(connection)
        self.write_rest(connection)

    def write_answer(self, connection: sqlite3.Connection) -> None:
        """Closes the call, within a transaction."""
        host, reply = self.state.id, self.reply
        values = (
            self.state.in_file.jobs_text,
            self.names,
            self.in_file.host,
            self.now,
            host,
            SERVED,
            reply.hostid,
        )
        if connection.execute(ANSWERED, values).rowcount == 0:
            store_number(connection, self.state, reply.hostid)
            connection.execute(ANSWERED, values)

    def write_rest(self, connection: sqlite3.Connection) -> None:
        """Writes what the reply and the computer say of the host, and the credit of the account and of the
        day, within a transaction, unless the account was deleted just now. Credit that the state file has
        already is not written.
        """
        key, account, day, reply = self.state.key, self.stored.account, self.now // DAY, self.reply
        user, host = reply.user_total_credit, reply.host_total_credit
        values = reply.user_name, user, host, self.now, self.about, self.state.id
        if connection.execute(HEARD, values).rowcount == 0:
            return
        if account is None:
            number = first_heard(connection, key.authenticator, reply.user_name, self.now, user)
            store_file_credit(connection, number, self.in_file.account)
            MEMBER_TABLE.record(connection, StoredDay(number, day, None), day, user)
        else:
            if account.credit != user:
                store_credit(connection, account.day.number, user)
                store_file_credit(connection, account.day.number, self.in_file.account)
            MEMBER_TABLE.record(connection, account.day, day, user)
        if self.stored.day is not None:
            HOST_TABLE.record(connection, self.stored.day, day, host)


def store_number(connection: sqlite3.Connection, state: HostState, number: int) -> None:
    """Stores bsched's number of a host in the served file, within a transaction. If bsched's tables were
    restored from an older copy, bsched may give a number a second time. Then another host of the account had
    it.
    """
    values = SERVED, number, state.id, state.key.authenticator
    for (other,) in connection.execute(SAME_NUMBER, values).fetchall():
        lose_number(connection, other)
    connection.execute(NUMBERED, (number, state.id, SERVED))


def check_count(connection: sqlite3.Connection, authenticator: str, most_hosts: int) -> None:
    """Raises TooManyHosts if an account has as many hosts as it may have, within a transaction."""
    (hosts,) = connection.execute(
        f"SELECT count(*) FROM host WHERE authenticator = ? AND {COUNTED}", (authenticator,)
    ).fetchone()
    if hosts >= most_hosts:
        raise TooManyHosts(hosts)


def inserted_host(connection: sqlite3.Connection, state: HostState, client: ClientState) -> int | None:
    """Inserts the host of a key, within a transaction. Returns its number, or None if the account was deleted
    just now. Raises StateChanged if there is such a host.
    """
    key = state.key.authenticator, state.key.host_cpid
    row = connection.execute(NEW_HOST, (*key, client.seqno, client.copy_of)).fetchone()
    if row is None and connection.execute(HAS_HOST, key).fetchone() is not None:
        raise StateChanged
    return None if row is None else cast(int, row[0])


def store_open(
    connection: sqlite3.Connection, state: HostState, opened: HostState, client: ClientState
) -> None:
    """Stores the call of a host that is still in a state, within a transaction. Raises StateChanged."""
    before, after = state.in_file, opened.in_file
    if before.is_stored:
        values = after.last_number, after.open_call, state.id, SERVED
        state_before = before.last_number, before.jobs_text, before.has_host
        done = connection.execute(OPENED, (*values, *state_before))
    else:
        done = connection.execute(NEW_IN_FILE, (opened.id, SERVED, after.last_number, after.open_call))
    if done.rowcount != 1:
        raise StateChanged
    if client.seqno is not None:
        connection.execute(COUNTED_BY_CLIENT, (client.seqno, state.id))


class HostStates:
    """The states of hosts.

    The rule of the order: a call is on the disk before it is sent, and stays there until the file has its
    answer. So what a kill or a power failure takes away is never more than an answer whose call is still
    open. Sent again, the call gets the same answer. This allows two things. A write that closes a call is not
    synced. And an answer may wait in memory, as the state that the host has now, until the next call of the
    host is opened, or somebody else uses the file: the transaction that opens the next call writes it first.
    What the answer says besides, such as credit, may wait longer, until the next `flush`, since the answer to
    the next call says it, too. A transaction takes what waits only once it has begun, since an answer that is
    written after the next call was opened would close that call.
    """

    def __init__(self, file: StateFile, archives: Archives = Archives()) -> None:
        self.file, self.archives, self._lock = file, archives, threading.Lock()
        # what is only in memory, by account and hostid, the latest answer last
        self._unwritten: dict[Place, Unwritten] = {}
        file.before_use = self.flush

    # ---- Reading

    def of_number(self, authenticator: str, hostid: int) -> HostState | None:
        """Returns the account's host with a number that a client was told. The account's credit may be that
        before an answer to another host, which is only in memory. Unless the key is held, the state may
        change until it is used: `open` finds that out.
        """
        unwritten = self._unwritten.get((authenticator, hostid))
        if unwritten is not None and unwritten.has_answer:
            return unwritten.state
        day = today()
        rows = self.file.rows(OF_NUMBER, day, authenticator, hostid, flushes=False)
        return state_of(authenticator, rows[0], day) if rows else None

    def begin(self, key: Key) -> HostState:
        """Returns the state of a key. While the key is held, its calls and its jobs in hand stay so."""
        day = today()
        row = self.file.row(OF_KEY, day, key.authenticator, key.host_cpid)
        if row is not None:
            return state_of(key.authenticator, row, day)
        row = self.file.row(OF_NEW_KEY, day, key.authenticator)
        return HostState(key, account=None if row is None else account_of(row, day))

    def next_open(self, after: int) -> tuple[int, Key] | None:
        """Returns the first host after another one that has an open call, with its key. The first one is
        after 0.
        """
        row = self.file.row(
            "SELECT host, authenticator, host_cpid FROM host_file JOIN host ON host.id = host_file.host "
            "WHERE open_call IS NOT NULL AND host_file.host > ? AND file = ? ORDER BY host LIMIT 1",
            after,
            SERVED,
        )
        return None if row is None else (cast(int, row[0]), Key(cast(str, row[1]), cast(str, row[2])))

    def knows_account(self, authenticator: str) -> bool:
        """Returns whether the state file has an account, or a host of it that had a reply."""
        row = self.file.row(
            "SELECT 1 FROM member WHERE authenticator = ?1 UNION ALL "
            "SELECT 1 FROM host WHERE authenticator = ?1 AND heard_at IS NOT NULL LIMIT 1",
            authenticator,
        )
        return row is not None

    def has_many_of_strangers(self) -> bool:
        """Returns whether there are as many open calls of unknown accounts as there may be."""
        row = self.file.row(
            "SELECT count(*) FROM (SELECT 1 FROM host_file CROSS JOIN host ON host.id = host_file.host "
            "WHERE open_call IS NOT NULL AND scheduler_hostid IS NULL AND hostid IS NULL "
            "AND heard_at IS NULL AND NOT EXISTS (SELECT 1 FROM member WHERE member.authenticator = "
            "host.authenticator) LIMIT ?)",
            MOST_OF_STRANGERS,
        )
        return row == (MOST_OF_STRANGERS,)

    # ---- A call

    def open(
        self,
        state: HostState,
        text: Callable[[int], bytes],
        client: ClientState = ClientState(),
        above: int = 0,
        most_hosts: int | None = None,
    ) -> HostState:
        """Returns a state with a new call. Its number is above `above` and all earlier numbers of its key.
        Text and number are on the disk before it returns. Raises StateChanged if the file has another state
        of the key by now, and CountEnded.

        A key that bsched does not know counts as one more host of its account. With most_hosts an account may
        have only that many. Raises TooManyHosts.
        """
        number = max(above, state.in_file.last_number) + 1
        if number > MOST_NUMBER:
            raise CountEnded
        opened = state.opened(number, text(number), client.seqno)
        if state.in_file.has_host:
            self._open_known(state, opened, client)
            return opened
        return self._opened_new(state, opened, client, most_hosts)

    def _open_known(self, state: HostState, opened: HostState, client: ClientState) -> None:
        """Stores the call of a host that bsched has. Of what is only in memory it first writes the answer to
        the host's last call. Raises StateChanged.
        """
        unwritten = None
        try:
            with self.file.transaction(flushes=False) as connection:
                unwritten = self._answer_of(state)
                if unwritten is not None:
                    unwritten.has_answer = False
                    unwritten.write_answer(connection)
                store_open(connection, state, opened, client)
        except BaseException:
            if unwritten is not None:
                unwritten.has_answer = True
            raise

    def _answer_of(self, state: HostState) -> Unwritten | None:
        """Returns what is only in memory of the answer to a host's last call."""
        unwritten = None if state.place is None else self._unwritten.get(state.place)
        return unwritten if unwritten is not None and unwritten.has_answer else None

    def _opened_new(
        self, state: HostState, opened: HostState, client: ClientState, most_hosts: int | None
    ) -> HostState:
        """Stores the call of a host that bsched does not have, and returns the state. If the account was
        deleted just now, nothing is stored. Raises TooManyHosts or StateChanged.
        """
        with self._writing() as connection:
            if most_hosts is not None:
                check_count(connection, state.key.authenticator, most_hosts)
            if state.id is None:
                opened = replace(opened, id=inserted_host(connection, state, client))
            if opened.id is not None:
                store_open(connection, state, opened, client)
        return opened

    def answered(
        self, state: HostState, reply: Reply, jobs_in_hand: list[Job], about: str | None = None
    ) -> None:
        """Closes the open call of a state after a reply. From now on these jobs are in hand. What the
        computer said of itself is stored, too, if it is known. Credit that the state has already is not
        written. An account that the state does not have is inserted.

        If a client has the host's number, and the bridge knows the account, the answer waits in memory.
        """
        now = int(time.time())
        after = state.answered(reply, text_of_jobs(jobs_in_hand), now // DAY)
        names = text_of_names(state.in_file.open_call or b"{}", reply)
        unwritten = Unwritten(after, state, reply, names, self._in_file(state.key, reply), about, now)
        if state.place is None or state.account is None:
            with self._writing(is_synced=False) as connection:
                unwritten.write(connection)
            return
        with self._lock:
            former = self._unwritten.pop(state.place, None)
            if former is not None:
                unwritten.stored = former.stored
            self._unwritten[state.place] = unwritten
        if len(self._unwritten) > MOST_UNWRITTEN:
            self.flush()

    def _in_file(self, key: Key, reply: Reply) -> FileCredit:
        """Returns the credit in the served file: that of a reply without that of the archives."""
        archives = self.archives
        return FileCredit(
            max(0, reply.host_total_credit - archives.hosts[key]),
            max(0, reply.user_total_credit - archives.users[key.authenticator]),
        )

    def refused(self, state: HostState) -> None:
        """Closes the open call of a state after a refusal, so the call changed nothing. If bsched knows no
        host of the key, and no client was given a number, the key is forgotten.
        """
        with self._writing(is_synced=False) as connection:
            connection.execute(FORGET, (state.id, SERVED))
            connection.execute(
                "UPDATE host_file SET open_call = NULL WHERE host = ? AND file = ?", (state.id, SERVED)
            )

    # ---- Besides a call

    def give_hostid(self, key: Key) -> int | None:
        """Returns the number of a host, which its client gets with this reply. The host has one if a
        client was given it before; else it gets a new one. It is on the disk before this returns. The client
        counts its requests from 0 again. If the account was deleted just now, there is no number.
        """
        with self._writing() as connection:
            values = key.authenticator, key.host_cpid
            row = connection.execute(
                "SELECT hostid FROM host WHERE authenticator = ? AND host_cpid = ?", values
            ).fetchone()
            if row is None:
                return None
            hostid = new_hostid(connection) if row[0] is None else row[0]
            connection.execute(
                "UPDATE host SET hostid = ?, client_seqno = NULL WHERE authenticator = ? AND host_cpid = ?",
                (hostid, *values),
            )
        return cast(int, hostid)

    def keep_in_hand(self, key: Key, jobs: list[Job]) -> None:
        """Has these jobs in hand, which the client of a host may lack."""
        with self._writing(is_synced=False) as connection:
            connection.execute(
                "UPDATE host_file SET jobs_in_hand = ? WHERE file = ? AND host = "
                "(SELECT id FROM host WHERE authenticator = ? AND host_cpid = ?)",
                (text_of_jobs(jobs), SERVED, key.authenticator, key.host_cpid),
            )

    # ---- What is only in memory

    def flush(self) -> None:
        """Writes what is only in memory. If it can't be written, a line in the log says so."""
        if not self._unwritten:
            return
        try:
            with self._writing(is_synced=False):
                pass
        except sqlite3.Error as error:
            log.error("answers to calls could not be stored: %s", error)

    @contextmanager
    def _writing(self, is_synced: bool = True) -> Iterator[sqlite3.Connection]:
        """Runs the block in a transaction that begins with what is only in memory. If a write fails, all of
        that is forgotten: its calls are still open.
        """
        with self.file.transaction(is_synced, flushes=False) as connection:
            written = list(self._unwritten.items())
            try:
                for _, unwritten in written:
                    unwritten.write(connection)
            except BaseException:
                self._drop(written)
                raise
            yield connection
        self._drop(written)

    def _drop(self, written: list[tuple[Place, Unwritten]]) -> None:
        """Forgets what was written, unless a later answer has taken its place."""
        with self._lock:
            for place, unwritten in written:
                if self._unwritten.get(place) is unwritten:
                    del self._unwritten[place]


class Flushing(threading.Thread):
    """A thread that writes what is only in memory, each second until it is ended."""

    def __init__(self, states: HostStates) -> None:
        super().__init__(name="flushing", daemon=True)
        self._states, self._ending = states, threading.Event()

    def run(self) -> None:
        """Writes until it is ended."""
        while not self._ending.wait(FLUSH_SECONDS):
            self._states.flush()

    def end(self) -> None:
        """Ends the thread, and writes the rest."""
        self._ending.set()
        self.join()
        self._states.flush()
