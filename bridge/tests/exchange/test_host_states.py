"""What the bridge keeps of hosts: their numbers, their calls, and answers that are only in memory."""
import itertools
import sqlite3
import threading
import time
from collections.abc import Iterator
from dataclasses import replace
from pathlib import Path
from typing import Any

import pytest
from joining import wait_until

from bsched_bridge.common.state_file import StateFile
from bsched_bridge.exchange.host_states import (
    AccountState,
    ClientState,
    CountEnded,
    FileState,
    Flushing,
    HostState,
    HostStates,
    StateChanged,
    TooManyHosts,
)
from bsched_bridge.people.barring import Barred, Barring
from bsched_bridge.people.credit_days import CreditDay, CreditDays, StoredDay
from bsched_bridge.people.hosts import MOST_NUMBER, Hosts, Key
from bsched_bridge.scheduler.messages import Job, Reply
from bsched_files.moments import DAY

KEY = Key("ann-key", "c1")
NEXT, OTHER = b'{"next": 1}', b'{"other": 1}'  # calls
JOB = Job("u1_0", "u1", "sum", "linux", 1, 60, 1000, False)


def reply(hostid: int = 1, jobs: tuple[Any, ...] = ()) -> Reply:
    return Reply(hostid, "Ann", 5, 5, 60, "enough", [], [], list(jobs), 1)


@pytest.fixture
def states(tmp_path: Path) -> Iterator[HostStates]:
    file = StateFile(tmp_path / "state.db")
    yield HostStates(file)
    file.close()


def text(number: int) -> bytes:
    """Returns the text of a call, which has its number."""
    return b'{"number": %d}' % number


def opened(states: HostStates, key: Key = KEY, above: int = 0, most_hosts: int | None = None) -> HostState:
    """Opens a call of a key, whose text has its number."""
    return states.open(states.begin(key), text, ClientState(), above, most_hosts)


def called(states: HostStates, key: Key = KEY, jobs: tuple[Job, ...] = (), hostid: int = 1) -> None:
    """Opens a call of a key, and records an answer that leaves jobs in hand."""
    states.answered(opened(states, key), reply(hostid), list(jobs))


def open_call(states: HostStates, key: Key = KEY) -> bytes | None:
    """Returns the call of a key that has no answer yet."""
    return states.begin(key).in_file.open_call


def test_numbers_rise_by_key(states: HostStates) -> None:
    for number in (1, 2, 3):
        state = opened(states)
        assert (state.in_file.last_number, state.in_file.open_call) == (number, text(number))
        states.answered(state, reply(), [])
    assert opened(states, Key("ann-key", "c2")).in_file.last_number == 1
    assert opened(states, KEY, above=10).in_file.last_number == 11


def test_a_number_that_could_not_be_told_is_not_taken(states: HostStates) -> None:
    with pytest.raises(ZeroDivisionError):
        states.open(states.begin(KEY), lambda number: b"%d" % (number // 0))
    assert open_call(states) is None
    assert opened(states).in_file.last_number == 1


def test_what_stands_is_on_the_disk_before_the_call_is_given(tmp_path: Path) -> None:
    file = StateFile(tmp_path / "state.db")
    opened(HostStates(file))
    (tmp_path / "copy").mkdir()
    for path in tmp_path.glob("state.db*"):  # as a stop leaves it
        (tmp_path / "copy" / path.name).write_bytes(path.read_bytes())
    file.close()
    copied = StateFile(tmp_path / "copy" / "state.db")
    copy = HostStates(copied)
    assert open_call(copy) == text(1)
    assert copy.next_open(0) == (1, KEY)
    assert copy.next_open(1) is None
    copy.refused(copy.begin(KEY))
    assert copy.next_open(0) is None
    copied.close()


def test_an_answer_closes_a_call_and_keeps_jobs(states: HostStates) -> None:
    called(states, jobs=(JOB,))
    assert open_call(states) is None
    assert states.next_open(0) is None
    assert states.begin(KEY).jobs_in_hand == [JOB]
    assert Hosts(states.file).heard(10)[0].user_name == "Ann"


TODAY = 20_000


@pytest.fixture
def today(monkeypatch: pytest.MonkeyPatch) -> None:
    """Lets it be this day."""
    monkeypatch.setattr("time.time", lambda: TODAY * DAY + 10.0)


def test_the_state_of_a_key(states: HostStates, today: None) -> None:
    assert states.begin(KEY) == HostState(KEY)
    assert states.begin(KEY).is_of_stranger
    call = opened(states)
    assert states.begin(KEY) == call == HostState(KEY, 1, in_file=FileState(True, 1, text(1)))
    assert call.is_of_stranger and not call.is_settled
    states.answered(call, reply(), [JOB])
    state = states.begin(KEY)
    ann = AccountState("Ann", None, None, 5, StoredDay(1, TODAY, 5))
    in_file = FileState(True, 1, None, state.in_file.jobs_text, True)
    assert state == HostState(KEY, 1, account=ann, in_file=in_file)
    assert state.jobs_in_hand == [JOB] and not state.is_of_stranger and state.is_settled
    hostid = states.give_hostid(KEY) or 0
    day = StoredDay(hostid, TODAY, None)
    assert states.of_number("ann-key", hostid) == states.begin(KEY) == replace(state, day=day)
    assert not HostState(KEY, day=day).is_of_stranger
    called(states, jobs=(JOB,))
    day, in_file = replace(day, credit=5), replace(in_file, last_number=2)
    after = replace(state, day=day, in_file=in_file)
    assert states.of_number("ann-key", hostid) == after
    states.flush()
    assert states.of_number("ann-key", hostid) == after
    # another host of the account, and another account
    assert states.begin(Key("ann-key", "c2")) == HostState(Key("ann-key", "c2"), account=ann)
    assert not HostState(KEY, account=ann).is_of_stranger
    assert states.of_number("bob-key", hostid) is None


def test_the_state_of_a_key_on_another_day(
    states: HostStates, today: None, monkeypatch: pytest.MonkeyPatch
) -> None:
    """The row of yesterday is not that of today."""
    called(states)
    monkeypatch.setattr("time.time", lambda: (TODAY + 1) * DAY + 10.0)
    account = AccountState("Ann", None, None, 5, StoredDay(1, TODAY + 1, None))
    assert states.begin(KEY).account == states.begin(Key("ann-key", "c2")).account == account


def test_the_team_of_a_key(states: HostStates, today: None) -> None:
    called(states)
    with states.file.transaction() as connection:
        connection.execute("INSERT INTO team (name, folded, founder, created_at) VALUES ('A', 'a', 1, 0)")
        connection.execute("UPDATE member SET team = 1")
    for key in (KEY, Key("ann-key", "c2")):
        account = states.begin(key).account
        assert account is not None and account.team == "A"


def test_credit_of_a_state_that_was_read_on_the_day_before(
    states: HostStates, today: None, monkeypatch: pytest.MonkeyPatch
) -> None:
    """The call begins before midnight, and its answer comes after it."""
    called(states)
    hostid = states.give_hostid(KEY) or 0
    called(states)
    state = opened(states)
    monkeypatch.setattr("time.time", lambda: (TODAY + 1) * DAY + 0.0)
    states.answered(state, reply(), [])
    kept, days = CreditDays(states.file), [CreditDay(TODAY, 5), CreditDay(TODAY + 1, 5)]
    assert kept.of_host(hostid) == kept.of_member(1) == days


def test_what_a_computer_says_of_itself_stays_if_a_call_is_sent_again(states: HostStates) -> None:
    for about, kept in (("{}", "{}"), (None, "{}"), ('{"processors":2}', '{"processors":2}')):
        states.answered(opened(states), reply(), [], about)
        assert states.file.row("SELECT about FROM host") == (kept,)


def answered_host(states: HostStates, key: Key = KEY, hostid: int = 1) -> int:
    """Makes a host with a number, and returns the number."""
    called(states, key, (JOB,), hostid)
    return states.give_hostid(key) or 0


def answered(
    states: HostStates, hostid: int, credit: int, jobs: tuple[Job, ...] = (), seqno: int = 1, number: int = 1
) -> None:
    """Opens the next call of a host with a number, and records its answer, which stays in memory. bsched
    knows the host by another number.
    """
    state = states.of_number("ann-key", hostid)
    assert state is not None
    call = states.open(state, lambda number: b"{}", ClientState(seqno=seqno))
    answer = replace(reply(number), user_total_credit=credit, host_total_credit=credit)
    states.answered(call, answer, list(jobs), "{}")


def stored(states: HostStates, query: str) -> list[tuple[object, ...]]:
    """Returns the rows that the file has."""
    return states.file.rows(query, flushes=False)


CALLS = "SELECT open_call FROM host_file JOIN host ON host = id ORDER BY host_cpid"


@pytest.mark.parametrize("credit", [5, 8])
@pytest.mark.parametrize("jobs", [(), (JOB,)])
def test_an_answer_that_is_only_in_memory(
    states: HostStates, today: None, credit: int, jobs: tuple[Job, ...]
) -> None:
    """The bridge knows the host as it is after the answer, and so do all who read the file."""
    hostid = answered_host(states)
    for seqno in (1, 2):
        answered(states, hostid, credit, jobs, seqno)
        known = states.of_number("ann-key", hostid)
        assert known is not None and known.client_seqno == seqno
        assert stored(states, CALLS) == [(b"{}",)]
    states.flush()
    assert stored(states, CALLS) == [(None,)]
    assert states.of_number("ann-key", hostid) == known
    assert CreditDays(states.file).of_host(hostid) == [CreditDay(TODAY, credit)]
    assert states.file.row("SELECT credit, about FROM member, host") == (credit, "{}")


def test_a_call_of_another_host_leaves_an_answer_in_memory(states: HostStates, today: None) -> None:
    """Of the credit of their account the latest answer counts."""
    other = Key("ann-key", "c2")
    first, second = answered_host(states), answered_host(states, other, 2)
    answered(states, first, 8)
    known = states.of_number("ann-key", second)
    assert known is not None and known.account is not None and known.account.credit == 5
    answered(states, second, 9, number=2)
    assert stored(states, CALLS) == [(b"{}",), (b"{}",)]
    assert states.file.row("SELECT credit FROM member") == (9,)
    assert stored(states, CALLS) == [(None,), (None,)]


def test_credit_that_is_only_in_memory_is_stored_once(states: HostStates, today: None) -> None:
    """Several answers to two hosts of an account come before it is stored."""
    first, second = answered_host(states), answered_host(states, Key("ann-key", "c2"), 2)
    for seqno, (hostid, credit, number) in enumerate([(first, 8, 1), (second, 9, 2), (first, 10, 1)]):
        answered(states, hostid, credit, (), seqno, number)
        assert stored(states, "SELECT credit FROM member") == [(5,)]
    assert states.file.row("SELECT credit FROM member") == (10,)
    days = CreditDays(states.file)
    assert days.of_member(1) == days.of_host(first) == [CreditDay(TODAY, 10)]
    assert days.of_host(second) == [CreditDay(TODAY, 9)]


def test_an_answer_in_memory_is_in_the_next_transaction(states: HostStates, today: None) -> None:
    hostid = answered_host(states)
    answered(states, hostid, 8)
    state = HostState(Key("ann-key", "c2"))
    states.open(state, lambda number: OTHER)
    assert stored(states, CALLS) == [(None,), (OTHER,)]
    assert stored(states, "SELECT credit FROM member") == [(8,)]
    assert states.begin(KEY).jobs_in_hand == []


def test_only_so_many_answers_are_in_memory(
    states: HostStates, today: None, monkeypatch: pytest.MonkeyPatch
) -> None:
    monkeypatch.setattr("bsched_bridge.exchange.host_states.MOST_UNWRITTEN", 2)
    hosts = [answered_host(states, Key("ann-key", f"c{number}"), number) for number in range(1, 4)]
    for number, hostid in enumerate(hosts[:2], 1):
        answered(states, hostid, 8, number=number)
    assert stored(states, CALLS) == [(b"{}",), (b"{}",), (None,)]
    answered(states, hosts[2], 8, number=3)
    assert stored(states, CALLS) == [(None,)] * 3


def test_an_answer_waits_for_a_second_at_most(
    states: HostStates, today: None, monkeypatch: pytest.MonkeyPatch
) -> None:
    hostid = answered_host(states)
    monkeypatch.setattr("bsched_bridge.exchange.host_states.FLUSH_SECONDS", 0.01)
    flushing = Flushing(states)
    flushing.start()
    answered(states, hostid, 8)
    monkeypatch.undo()
    wait_until(lambda: stored(states, CALLS) == [(None,)])
    flushing.end()
    monkeypatch.setattr("bsched_bridge.exchange.host_states.FLUSH_SECONDS", 600.0)
    flushing = Flushing(states)
    flushing.start()
    answered(states, hostid, 9)
    flushing.end()
    assert stored(states, CALLS) == [(None,)]


def test_an_answer_that_is_lost_before_it_is_stored(states: HostStates, today: None) -> None:
    """Its call is still there, and is sent again."""
    hostid = answered_host(states)
    answered(states, hostid, 8)
    states._unwritten.clear()  # as a kill does
    assert states.next_open(0) == (1, KEY)
    assert open_call(states) == b"{}"


def test_credit_is_lost_only_while_a_call_is_open(states: HostStates, today: None) -> None:
    """The answer to that call has it, too."""
    hostid = answered_host(states)
    answered(states, hostid, 8)
    known = states.of_number("ann-key", hostid)
    assert known is not None
    states.open(known, lambda number: NEXT, ClientState(seqno=2))
    query = "SELECT open_call, jobs_in_hand, credit FROM host_file"
    assert stored(states, query) == [(NEXT, "[]", 8)]
    credit = "SELECT credit, host_credit FROM member, host"
    assert stored(states, credit) == [(5, 5)]
    states.flush()
    assert stored(states, query) == [(NEXT, "[]", 8)]
    assert stored(states, credit) == [(8, 8)]


class Failing:
    """A connection on which a statement fails."""

    def __init__(self, connection: sqlite3.Connection, statement: str) -> None:
        self.connection, self.statement = connection, statement

    def execute(self, statement: str, *values: Any) -> sqlite3.Cursor:
        """Runs a statement, unless it is the one that fails."""
        if statement.startswith(self.statement):
            raise sqlite3.OperationalError("disk I/O error")
        return self.connection.execute(statement, *values)

    def __getattr__(self, name: str) -> Any:
        return getattr(self.connection, name)


def test_an_answer_that_can_not_be_stored_is_forgotten(
    states: HostStates, today: None, caplog: pytest.LogCaptureFixture, monkeypatch: pytest.MonkeyPatch
) -> None:
    """Its call is still open, and the next transaction is as good as ever."""
    hostid = answered_host(states)
    answered(states, hostid, 8)
    file: Any = states.file
    with monkeypatch.context() as patched:
        patched.setattr(file, "_connection", Failing(file._connection, "UPDATE host_file SET open_call"))
        states.flush()
    assert [record.getMessage() for record in caplog.records] == [
        "answers to calls could not be stored: disk I/O error"
    ]
    assert open_call(states) == b"{}"
    assert states.file.row("SELECT credit FROM member") == (5,)


@pytest.mark.parametrize("statement", ["COMMIT", "UPDATE host_file SET last_number"])
def test_a_transaction_that_is_undone_leaves_the_answer_in_memory(
    states: HostStates, today: None, monkeypatch: pytest.MonkeyPatch, statement: str
) -> None:
    hostid = answered_host(states)
    answered(states, hostid, 8)
    known = states.of_number("ann-key", hostid)
    file: Any = states.file
    assert known is not None
    with monkeypatch.context() as patched:
        patched.setattr(file, "_connection", Failing(file._connection, statement))
        with pytest.raises(sqlite3.OperationalError):
            states.open(known, lambda number: NEXT, ClientState(seqno=2))
    assert stored(states, CALLS) == [(b"{}",)]
    assert states.of_number("ann-key", hostid) == known
    states.open(known, lambda number: NEXT, ClientState(seqno=2))
    assert stored(states, CALLS) == [(NEXT,)]
    states.flush()
    assert stored(states, CALLS) == [(NEXT,)]


@pytest.mark.parametrize("at", range(1, 7))
def test_a_call_that_is_opened_while_its_last_answer_is_stored(
    states: HostStates, today: None, monkeypatch: pytest.MonkeyPatch, at: int
) -> None:
    """Another thread flushes meanwhile, at any of its statements, and never closes the new call."""
    hostid = answered_host(states)
    answered(states, hostid, 8)
    known, passed = states.of_number("ann-key", hostid), itertools.count(1)
    assert known is not None
    other = threading.Thread(target=states.open, args=(known, lambda number: NEXT, ClientState(seqno=2)))
    file: Any = states.file
    execute = file._connection.execute

    class Slow(Failing):
        """A connection at one of whose statements the other thread begins."""

        def execute(self, statement: str, *values: Any) -> sqlite3.Cursor:
            if threading.current_thread() is not other and next(passed) == at:
                other.start()
                other.join(0.1)
            done: sqlite3.Cursor = execute(statement, *values)
            return done

    monkeypatch.setattr(file, "_connection", Slow(file._connection, "none"))
    states.flush()
    if other.ident is None:  # there were fewer statements
        other.start()
    other.join()
    states.flush()
    assert stored(states, CALLS) == [(NEXT,)]
    assert stored(states, "SELECT credit FROM member") == [(8,)]


@pytest.mark.parametrize("by_command", [False, True])
def test_an_answer_that_waits_while_its_account_is_deleted(
    states: HostStates, today: None, tmp_path: Path, by_command: bool
) -> None:
    """Here, or by a command of the operator."""
    hostid = answered_host(states)
    answered(states, hostid, 8)
    file = StateFile(tmp_path / "state.db", is_guest=True) if by_command else states.file
    Barring(file).delete("ann-key", 1000)
    if by_command:
        file.close()
    states.flush()
    for table in ("host", "host_file", "member_file", "member_day", "host_day"):
        assert states.file.row(f"SELECT count(*) FROM {table}") == (0,)
    assert states.file.row("SELECT credit FROM member") == (None,)


def test_an_answer_after_the_deletion_of_its_account_inserts_nothing(states: HostStates) -> None:
    state = opened(states)
    Barring(states.file).delete("ann-key", 1000)
    states.answered(state, reply(), [], "{}")
    for table in ("host", "host_file", "member", "member_file", "member_day"):
        assert states.file.row(f"SELECT count(*) FROM {table}") == (0,)


def test_a_call_after_the_deletion_of_its_account_is_not_stored(states: HostStates, today: None) -> None:
    hostid = answered_host(states)
    known = states.of_number("ann-key", hostid)
    assert known is not None
    Barring(states.file).delete("ann-key", 1000)
    with pytest.raises(StateChanged):
        states.open(known, lambda number: b"{}")
    assert opened(states).in_file.last_number == 1
    assert states.file.row("SELECT count(*) FROM host") == (0,)


def test_a_barred_account_of_a_known_host(states: HostStates) -> None:
    hostid = answered_host(states)
    Barring(states.file).bar("ann-key", 1000)
    known = states.of_number("ann-key", hostid)
    assert known is not None and known.barred is Barred.BY_OPERATOR
    Barring(states.file).unbar("ann-key")
    known = states.of_number("ann-key", hostid)
    assert known is not None and known.barred is None


def test_a_call_is_opened_only_in_the_state_that_the_file_has(states: HostStates) -> None:
    """Else nothing changes."""
    seen = opened(states)

    def is_opened(state: HostState, seqno: int = 3) -> bool:
        try:
            states.open(state, text, ClientState(seqno=seqno))
        except StateChanged:
            return False
        return True

    def changed(state: HostState, **members: Any) -> HostState:
        return replace(state, in_file=replace(state.in_file, **members))

    assert not is_opened(HostState(KEY))  # the file has the key by now
    assert not is_opened(changed(seen, open_call=None))  # there is an open call
    states.refused(seen)
    assert not is_opened(changed(seen, open_call=None))  # the key is forgotten
    called(states, jobs=(JOB,))
    seen = states.begin(KEY)
    assert not is_opened(changed(seen, jobs_text="[]"))
    assert not is_opened(changed(seen, last_number=7))
    assert not is_opened(changed(seen, has_host=False))
    assert states.begin(KEY) == seen
    assert is_opened(seen)
    assert states.begin(KEY).in_file == replace(seen.in_file, last_number=2, open_call=text(2))
    assert not is_opened(seen)
    states.answered(states.begin(KEY), reply(), [JOB])
    seen = states.begin(KEY)
    Hosts(states.file).mark_gone(KEY)
    assert not is_opened(seen)  # it counts for the limit of hosts
    assert is_opened(states.begin(KEY))


def test_the_jobs_that_a_client_may_have(states: HostStates) -> None:
    """They follow from the bytes of a call and from its reply, so a call that is sent again gives the same
    names.
    """
    calls: list[tuple[bytes, list[Job], list[str], str]] = [
        (b'{"other_results": ["u0_0"]}', [JOB], [], "u0_0 u1_0"),
        (b'{"other_results": ["u0_0", "u1_0"]}', [JOB], ["u0_0"], "u1_0"),
        (b'{"other_results": []}', [], [], ""),
        (b'{"other_results": ["u1_0"]}', [], [], "u1_0"),
        (b"{}", [JOB], [], ""),  # the client sends no list
    ]
    for call, jobs, aborts, names in calls:
        for _ in range(2):
            state = states.open(states.begin(KEY), lambda _number: call)
            answer = replace(reply(), results=jobs, result_abort=aborts)
            states.answered(state, answer, jobs)
            assert states.file.row("SELECT jobs, jobs_in_hand = '[]' FROM host_file") == (names, not jobs)


def test_the_number_of_a_deleted_host_is_not_given_again(states: HostStates, today: None) -> None:
    """So an answer that comes late closes no call of another host."""
    late = opened(states)
    Barring(states.file).delete("ann-key", 1000)
    other = Key("bob-key", "c1")
    call = opened(states, other)
    assert late.id != call.id
    states.answered(late, reply(), [JOB])
    assert states.begin(other) == call


@pytest.mark.parametrize("told, kept", [([3, 5, 4], 5), ([None, 0], 0), ([None], None)])
def test_the_count_of_a_client_never_falls(
    states: HostStates, told: list[int | None], kept: int | None
) -> None:
    called(states)
    for seqno in told:
        state = states.open(states.begin(KEY), lambda number: b"{}", ClientState(seqno=seqno))
        states.answered(state, reply(), [])
    assert states.file.row("SELECT client_seqno FROM host") == (kept,)


def test_an_account_that_the_bridge_has_is_not_inserted(states: HostStates, today: None) -> None:
    state = opened(states)
    account = AccountState("Ann", None, None, 5, StoredDay(1, TODAY, 5))
    states.give_hostid(KEY)
    known = states.begin(KEY)
    states.answered(replace(known, account=account), reply(), [])
    assert states.file.row("SELECT count(*) FROM member") == (0,)
    states.answered(state, reply(), [])
    states.answered(state, reply(), [])  # another host's first reply was recorded meanwhile
    states.answered(states.begin(KEY), reply(), [])
    assert states.file.rows("SELECT authenticator, name FROM member") == [("ann-key", "Ann")]


def test_a_number_that_bsched_gives_a_second_time_is_that_of_the_latest_reply(states: HostStates) -> None:
    hosts, other, stranger = Hosts(states.file), Key("ann-key", "c2"), Key("bob-key", "c1")
    for key in (KEY, stranger, other):
        called(states, key, (JOB,), 7)
    assert [hosts.scheduler_hostid(key) for key in (KEY, other, stranger)] == [None, 7, 7]
    assert [open_call(states, key) for key in (KEY, other, stranger)] == [None] * 3
    called(states, other, (), 7)
    assert hosts.scheduler_hostid(other) == 7


def test_a_reply_in_the_future_is_older_than_all_others(
    states: HostStates, monkeypatch: pytest.MonkeyPatch
) -> None:
    """The clock was ahead once. What a later reply says of the credit counts."""
    now = time.time()
    for cpid, moment, credit in (("c1", now + 10**6, 5), ("c2", now - 10, 9)):
        monkeypatch.setattr("time.time", lambda: moment)
        state = opened(states, Key("ann-key", cpid))
        states.answered(state, replace(reply(), hostid=credit, user_total_credit=credit), [])
    monkeypatch.undo()
    assert Hosts(states.file).user_credits() == [("ann-key", 9)]


def test_a_key_without_a_host_is_forgotten_at_a_refusal(states: HostStates) -> None:
    states.refused(opened(states))
    assert states.file.row("SELECT count(*) FROM host") == (0,)
    called(states)
    states.refused(opened(states))
    assert open_call(states) is None
    assert opened(states).in_file.last_number == 3


def test_numbers_end(states: HostStates) -> None:
    assert opened(states, above=MOST_NUMBER - 1).in_file.open_call == text(MOST_NUMBER)
    states.answered(states.begin(KEY), reply(), [])
    with pytest.raises(CountEnded):
        opened(states)
    with pytest.raises(CountEnded):
        opened(states, Key("ann-key", "c2"), above=MOST_NUMBER)


def test_threads_share_no_number(states: HostStates) -> None:
    """Of those that open a call of a state, one does."""
    given: list[bytes | None] = []
    called(states)

    def opens() -> None:
        for _ in range(20):
            try:
                state = opened(states)
            except StateChanged:
                continue
            given.append(state.in_file.open_call)
            states.answered(state, reply(), [])

    threads = [threading.Thread(target=opens) for _ in range(8)]
    for thread in threads:
        thread.start()
    for thread in threads:
        thread.join()
    assert given == [text(number) for number in range(2, len(given) + 2)]


def test_a_new_host_is_refused_where_there_are_as_many_as_may_be(states: HostStates) -> None:
    calls = [opened(states, Key("ann-key", f"c{number}"), most_hosts=3) for number in range(3)]
    with pytest.raises(TooManyHosts):
        opened(states, Key("ann-key", "c3"), most_hosts=3)
    states.answered(calls[1], reply(), [])
    opened(states, Key("ann-key", "c1"), most_hosts=1)  # this host exists already
    opened(states, Key("bob-key", "c3"), most_hosts=3)
    states.refused(calls[0])  # it has no host, so its key is forgotten
    opened(states, Key("ann-key", "c3"), most_hosts=3)
