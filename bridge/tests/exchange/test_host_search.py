"""Which host has a result, by bsched's statements."""
import sqlite3

import pytest
from bridges import Bridge
from lost_states import A, B, loses_state, recorded
from messages import FIRST, jobs, names, request, value
from twin import Twin

from bsched_bridge.exchange.host_search import MOST_SEARCHES
from bsched_bridge.people.hosts import Key


def test_restored_tables_that_give_a_number_again(two: Bridge, twin: Twin) -> None:
    import copy

    older = copy.deepcopy(twin.service)
    assert value(two.call(request(cpid="c")), "hostid") == str(FIRST + 2)
    twin.service = older
    assert value(two.call(request(cpid="d")), "hostid") == str(FIRST + 3)  # for bsched it is number 3, too
    reply = two.call(request(hostid=FIRST + 2, cpid="c9", seconds=0))
    assert value(reply, "hostid") is None
    assert [key[1] for key in twin.service.machine.hosts] == ["a", "b", "d", "c"]


def test_a_lost_state_file(two: Bridge, twin: Twin, monkeypatch: pytest.MonkeyPatch) -> None:
    loses_state(two, monkeypatch)
    reply = two.call(request(hostid=B, cpid="b", seqno=5, reports=[("u2_0", "42")], seconds=0))
    assert names(reply, "result_ack") == ["u2_0"] and recorded(twin, "u2_0") == "b"
    assert value(reply, "hostid") == str(FIRST + 1001)  # and never one that was told before
    assert len(twin.service.machine.hosts) == 2
    # A got the number that B has now by no means
    reply = two.call(request(hostid=A, cpid="a", seqno=5, listed=["u1_0"], seconds=0))
    assert value(reply, "hostid") == str(FIRST + 1002)


def test_a_lost_state_file_and_a_changed_host_cpid(
    two: Bridge, twin: Twin, monkeypatch: pytest.MonkeyPatch, caplog: pytest.LogCaptureFixture
) -> None:
    two.call(request(hostid=B, cpid="new", listed=["u2_0"], seconds=0))
    loses_state(two, monkeypatch)
    for _ in range(2):
        reply = two.call(request(hostid=B, cpid="new", reports=[("u2_0", "42")], seconds=0))
        assert names(reply, "result_ack") == [] == names(reply, "result_abort")
        assert value(reply, "hostid") is None
        assert "can't tell which computer got u2_0" in value(reply, "message")
    assert "no known host has 'u2_0', so its report is not taken (1 results)" in caplog.text
    assert recorded(twin, "u2_0") is None
    # what is known to be its own is taken, and it gets no job
    two.call(request(cpid="new", seconds=60))
    assert value(reply, "request_delay") == "3600.000000"
    reply = two.call(request(hostid=B, cpid="new", reports=[("u2_0", "42"), ("u3_0", "42")], seconds=99))
    assert names(reply, "result_ack") == ["u3_0"] and recorded(twin, "u3_0") == "new" and jobs(reply) == []
    assert value(reply, "hostid") is None and "can't tell which computer got u2_0" in value(reply, "message")
    # once the volunteer has added the project again, it goes on
    assert value(two.call(request(cpid="new", seconds=0)), "hostid") == str(FIRST + 1001)


def test_an_older_state_file_and_a_changed_host_cpid(
    two: Bridge, twin: Twin, monkeypatch: pytest.MonkeyPatch
) -> None:
    two.file.close()
    older = {path: path.read_bytes() for path in two.folder.glob("bridge.db*")}
    two.start()
    with two.file.transaction() as connection:  # B gets another number, as after a former loss
        connection.execute("UPDATE host SET hostid = 200000 WHERE host_cpid = 'b'")
    two.call(request(hostid=200_000, cpid="new", listed=["u2_0"], seconds=0))
    two.file.close()
    for path, content in older.items():
        path.write_bytes(content)
    two.start()
    reply = two.call(request(hostid=200_000, cpid="new", reports=[("u2_0", "42")], seconds=0))
    assert names(reply, "result_ack") == ["u2_0"] and recorded(twin, "u2_0") == "b"
    assert value(reply, "hostid") == str(FIRST + 2)  # a new host
    assert len(twin.service.machine.hosts) == 3


def test_a_client_of_an_unknown_number_gets_no_jobs_of_another(two: Bridge, twin: Twin) -> None:
    """Its results say that it is another computer than its host_cpid says, as after a restore of the
    tables."""
    reply = two.call(request(hostid=77, cpid="a", listed=["u2_0"]))
    assert value(reply, "hostid") == str(FIRST + 2)
    assert names(reply, "result_abort") == ["u2_0"] and jobs(reply) == []
    reply = two.call(request(hostid=78, cpid="a", reports=[("u2_0", "42")]))
    assert names(reply, "result_ack") == ["u2_0"] and recorded(twin, "u2_0") == "b" and jobs(reply) == []
    assert value(reply, "hostid") == str(FIRST + 3)
    # a client with results of its own host is that host
    reply = two.call(request(hostid=79, cpid="a", listed=["u1_0"], reports=[("u2_0", "42")], seconds=0))
    assert value(reply, "hostid") == str(A) and names(reply, "result_ack") == ["u2_0"]


def test_a_client_of_an_upgraded_bridge_with_another_host_cpid(two: Bridge, twin: Twin) -> None:
    with two.file.transaction() as connection:
        connection.execute("UPDATE host SET hostid = NULL, client_seqno = NULL, has_former_number = 1")
    reply = two.call(request(hostid=1, cpid="new", seqno=9, listed=["u2_0"], seconds=0))
    assert value(reply, "hostid") == str(FIRST + 2) and names(reply, "result_abort") == []
    reply = two.call(request(hostid=FIRST + 2, cpid="newer", seqno=1, reports=[("u2_0", "42")], seconds=0))
    assert names(reply, "result_ack") == ["u2_0"] and recorded(twin, "u2_0") == "b"
    assert len(twin.service.machine.hosts) == 2


@pytest.mark.parametrize("fault", ["no answer", "refused"])
def test_without_a_statement_nothing_is_acknowledged(
    two: Bridge, twin: Twin, monkeypatch: pytest.MonkeyPatch, fault: str
) -> None:
    loses_state(two, monkeypatch)
    if fault == "refused":
        monkeypatch.setattr(two.application.scheduler, "statement", lambda *_words: None)
    else:
        # the call is answered after another try, and the question for the host is not
        twin.faults = [None, None, "unheard"]
    reply = two.call(request(hostid=B, cpid="b", reports=[("u2_0", "42")], seconds=0))
    assert names(reply, "result_ack") == [] and value(reply, "project_is_down") == "1"
    monkeypatch.undo()
    reply = two.call(request(hostid=B, cpid="b", reports=[("u2_0", "42")], seconds=0))
    assert names(reply, "result_ack") == ["u2_0"] and recorded(twin, "u2_0") == "b"


def test_without_the_operators_key_a_host_is_the_one_with_bscheds_number(
    two: Bridge, twin: Twin, monkeypatch: pytest.MonkeyPatch
) -> None:
    with two.file.transaction() as connection:  # as after an upgrade of the state file
        connection.execute("UPDATE host SET hostid = NULL, client_seqno = NULL")
    two.application.exchange.search.operator_key = None
    reply = two.call(request(hostid=2, cpid="b", reports=[("u2_0", "42")], seconds=0))
    assert names(reply, "result_ack") == ["u2_0"] and recorded(twin, "u2_0") == "b"
    for hostid in (2, 0):  # not the number of this host
        reply = two.call(request(hostid=hostid, cpid="a", reports=[("u1_0", "42")], seconds=0))
        assert names(reply, "result_ack") == [] and "can't tell" in value(reply, "message")
    assert len(twin.service.machine.hosts) == 2


def test_searches_are_limited(two: Bridge, twin: Twin) -> None:
    for _ in range(MOST_SEARCHES + 1):  # a client without results needs none
        reply = two.call(request(hostid=77, cpid="a", listed=[], seconds=0))
        assert value(reply, "message") != "The project is busy at the moment."
    for _ in range(MOST_SEARCHES):
        two.call(request(hostid=77, cpid="a", listed=["u1_0"], seconds=0))
    heard = len(twin.heard)
    reply = two.call(request(hostid=77, cpid="a", listed=["u1_0"], seconds=0))
    assert value(reply, "message") == "The project is busy at the moment." and len(twin.heard) == heard
    assert value(two.call(request(hostid=A, cpid="a", listed=["u1_0"], seconds=0)), "message") is None


def test_without_names_no_statement_is_asked_for(two: Bridge, twin: Twin) -> None:
    before = len(twin.heard)
    assert two.application.exchange.search.held(Key("ann-key", "a"), set()) == set()
    assert len(twin.heard) == before


def test_a_name_of_a_result_makes_no_line_of_the_log(
    file_bridge: Bridge, monkeypatch: pytest.MonkeyPatch, caplog: pytest.LogCaptureFixture
) -> None:
    name = "x&#10;2026-11-30 03:00:00,000 ERROR bsched_bridge: made up &#155;31m"
    reply = file_bridge.call(request(reports=[(name, "")]))
    assert "can't tell which computer got" in value(reply, "message")  # it has an answer all the same
    assert jobs(file_bridge.call(request())) == ["u1_0"]

    def fails(_result: str) -> None:
        raise sqlite3.OperationalError("database or disk is full")

    checks = file_bridge.application.exchange.reports
    assert checks is not None
    monkeypatch.setattr(checks.jobs, "job", fails)
    file_bridge.call(request(hostid=A, reports=[(name, "")]))
    lines = [record.getMessage() for record in caplog.records]
    assert sum("made up" in line for line in lines) == 2 and all(line.isprintable() for line in lines)
