"""Whose host a client is: numbers that clients were told, changed host_cpids, copies, and lost state
files."""
from pathlib import Path

import pytest
from bridges import Bridge
from lost_states import A, B, loses_state, recorded
from messages import FIRST, jobs, names, request, value
from random_lives import further_file
from twin import Twin

from bsched_bridge.common.state_file import StateFile
from bsched_bridge.people import hosts
from bsched_bridge.people.hosts import Key


def test_numbers_rise_and_are_those_of_the_bridge(two: Bridge, twin: Twin) -> None:
    assert [host.hostid for host in two.hosts.heard(9)] == [B, A]
    assert value(two.call(request(cpid="b1", key="bob-key")), "hostid") == str(FIRST + 2)
    assert [host.number for host in twin.service.machine.hosts.values()] == [1, 2, 3]


def test_numbers_are_random_whatever_the_clock_says(tmp_path: Path, monkeypatch: pytest.MonkeyPatch) -> None:
    """Neither a burst of computers nor a clock of 1970 makes a number that another state file will give."""
    monkeypatch.undo()
    monkeypatch.setattr("time.time", lambda: 0.0)
    given = []
    for name in ("first", "second"):
        file = StateFile(tmp_path / name)
        with file.transaction() as connection:
            for number in range(1000):
                given.append(hosts.new_hostid(connection))
                connection.execute(
                    "INSERT INTO host (authenticator, host_cpid, hostid) VALUES ('a', ?, ?)",
                    (str(number), given[-1]),
                )
        file.close()
    assert min(given) >= hosts.LEAST_NUMBER and max(given) <= 2**31 - 1
    assert len(set(given)) > 1990  # of 2,000: with 31 bits hardly one is given twice
    assert max(given) - min(given) > 2**28


def test_a_number_that_is_used_is_not_given(tmp_path: Path, monkeypatch: pytest.MonkeyPatch) -> None:
    numbers = iter([200_001, 200_002, 200_001, 200_003])
    monkeypatch.setattr("bsched_bridge.people.hosts.random_number", numbers.__next__)
    file = StateFile(tmp_path / "bridge.db")
    with file.transaction() as connection:
        insert = "INSERT INTO host (authenticator, host_cpid, hostid) VALUES ('a', 'c', ?)"
        connection.execute(insert, (hosts.new_hostid(connection),))
        connection.execute("INSERT INTO host_day (hostid, day, credit) VALUES (200002, 1, 1)")
        assert hosts.new_hostid(connection) == 200_003
    file.close()


COMPUTERS = 12


@pytest.mark.parametrize("is_reversed", [True, False])
def test_numbers_that_are_given_a_second_time(
    project: Path, twin: Twin, monkeypatch: pytest.MonkeyPatch, is_reversed: bool
) -> None:
    """Some computers of an account have a job each. The state file is lost, and the new one gives the very
    same numbers again, to other computers. No report is acknowledged that is not recorded.
    """
    monkeypatch.setattr("bsched_bridge.scheduler.messages.PAUSE_SECONDS", 0.0)
    monkeypatch.setattr("bsched_bridge.exchange.host_search.MOST_SEARCHES", 10**6)
    twin.statement = None
    bridge = Bridge(project, twin)
    numbers, held = {}, {}
    for place in range(COMPUTERS):
        reply = bridge.call(request(cpid=f"c{place}"))
        numbers[place], held[place] = int(value(reply, "hostid") or 0), jobs(reply)
    holders = [place for place in held if held[place]]
    assert len(holders) > 2
    loses_state(bridge, monkeypatch, later=-1)
    order = list(range(COMPUTERS))
    for place in reversed(order) if is_reversed else order[1:] + order[:1]:
        bridge.call(request(hostid=numbers[place], cpid=f"c{place}", seqno=3, listed=held[place], seconds=0))
    for place in holders:
        reports = [(name, "42") for name in held[place]]
        reply = bridge.call(
            request(hostid=numbers[place], cpid=f"c{place}", seqno=4, reports=reports, seconds=0)
        )
        acknowledged = set(names(reply, "result_ack"))
        assert acknowledged == set(held[place])
        assert {recorded(twin, name) for name in acknowledged} == {f"c{place}"}
    bridge.file.close()


def test_a_number_that_is_given_again_and_a_changed_host_cpid(
    two: Bridge, twin: Twin, monkeypatch: pytest.MonkeyPatch
) -> None:
    """A has the number that B got from the new state file, and nobody knows A's host. Only its count shows
    that it is not B.
    """
    loses_state(two, monkeypatch, later=-1)
    assert value(two.call(request(hostid=B, cpid="b", seqno=3, listed=["u2_0"], seconds=0)), "hostid") == str(
        A
    )
    for _ in range(2):
        reply = two.call(request(hostid=A, cpid="new", seqno=7, reports=[("u1_0", "42")], seconds=0))
        assert names(reply, "result_ack") == [] and recorded(twin, "u1_0") is None
        assert "can't tell which computer got u1_0" in value(reply, "message")


def gives_number_again(bridge: Bridge, seqno: int) -> None:
    """B is known to a new state file by the number that A had from the lost one, and has called before."""
    bridge.call(request(hostid=B, cpid="b", seqno=3, listed=["u2_0"], seconds=0))
    with bridge.file.transaction() as connection:
        connection.execute("UPDATE host SET hostid = ?, client_seqno = ? WHERE host_cpid = 'b'", (A, seqno))


def test_a_number_that_is_given_again_and_a_lower_count(
    two: Bridge, twin: Twin, monkeypatch: pytest.MonkeyPatch
) -> None:
    """A looks like a copy of B. The bridge does not know A's host, and finds out that it has the result."""
    loses_state(two, monkeypatch)
    gives_number_again(two, seqno=9)
    reply = two.call(request(hostid=A, cpid="a", seqno=7, reports=[("u1_0", "42")], seconds=0))
    assert names(reply, "result_ack") == ["u1_0"] and recorded(twin, "u1_0") == "a"
    assert value(reply, "hostid") not in (None, str(A), str(B))


def test_a_number_that_is_given_again_a_lower_count_and_a_changed_host_cpid(
    two: Bridge, twin: Twin, monkeypatch: pytest.MonkeyPatch
) -> None:
    """Nobody can say whose the result is, so it is not acknowledged."""
    loses_state(two, monkeypatch)
    gives_number_again(two, seqno=9)
    reply = two.call(request(hostid=A, cpid="new", seqno=7, reports=[("u1_0", "42")], seconds=0))
    assert names(reply, "result_ack") == [] and recorded(twin, "u1_0") is None
    assert "can't tell which computer got u1_0" in value(reply, "message")


def test_a_further_file_in_which_the_numbers_are_exchanged(two: Bridge, twin: Twin) -> None:
    twin.service = further_file(twin.service, 1)
    assert jobs(two.call(request(hostid=B, cpid="b", listed=["u2_0"]))) == ["f1u1_0"]
    assert jobs(two.call(request(hostid=A, cpid="a", listed=["u1_0"]))) == ["f1u2_0"]
    assert [key[1] for key in twin.service.machine.hosts] == ["b", "a"]
    # another project changes the host_cpid of B: it is B nevertheless
    reply = two.call(request(hostid=B, cpid="new", reports=[("f1u1_0", "42")]))
    assert names(reply, "result_ack") == ["f1u1_0"] and recorded(twin, "f1u1_0") == "b"
    assert "f1u2_0" not in jobs(reply)


def test_a_host_cpid_that_another_computer_had(two: Bridge, twin: Twin) -> None:
    two.call(request(hostid=A, cpid="other", listed=["u1_0"], seconds=0))
    reply = two.call(request(hostid=B, cpid="a", reports=[("u2_0", "42")]))
    assert names(reply, "result_ack") == ["u2_0"] and recorded(twin, "u2_0") == "b"
    assert "u1_0" not in jobs(reply)


# ---- Copies


def test_a_copy_gets_a_host_of_its_own(two: Bridge, twin: Twin) -> None:
    for seqno in (1, 2, 3):
        assert (
            value(two.call(request(hostid=A, cpid="a", seqno=seqno, listed=["u1_0"], seconds=0)), "hostid")
            is None
        )
    copy = request(hostid=A, cpid="a", seqno=2, listed=["u1_0"], seconds=60)
    reply = two.call(copy)
    assert value(reply, "hostid") == str(FIRST + 2)
    assert names(reply, "result_abort") == ["u1_0"] and jobs(reply) == []
    # its next request has the new number, counts from 0, and gets jobs of its own
    reply = two.call(request(hostid=FIRST + 2, cpid="a2", seqno=1))
    assert value(reply, "hostid") is None and jobs(reply) == ["u3_0"]
    reply = two.call(request(hostid=A, cpid="a", seqno=4, reports=[("u1_0", "42")], seconds=0))
    assert names(reply, "result_ack") == ["u1_0"] and recorded(twin, "u1_0") == "a"


def test_what_a_copy_finished_is_reported_for_the_original(two: Bridge, twin: Twin) -> None:
    two.call(request(hostid=A, cpid="a", seqno=3, listed=["u1_0"], seconds=0))
    reply = two.call(request(hostid=A, cpid="a", seqno=2, reports=[("u1_0", "42")], seconds=0))
    assert names(reply, "result_ack") == ["u1_0"] and recorded(twin, "u1_0") == "a"
    assert value(reply, "hostid") == str(FIRST + 2)
    reply = two.call(request(hostid=A, cpid="a", seqno=4, listed=["u1_0"], seconds=0))
    assert names(reply, "result_abort") == ["u1_0"]


def test_a_copy_of_a_host_that_bsched_knows_by_another_number(two: Bridge, twin: Twin) -> None:
    """As after a restore of an older state file: the statement of that number is another host's."""
    two.call(request(hostid=A, cpid="a", seqno=3, listed=["u1_0"], seconds=0))
    with two.file.transaction() as connection:
        connection.execute(
            "UPDATE host_file SET scheduler_hostid = 77 WHERE host IN (SELECT id FROM host "
            "WHERE host_cpid = 'a')"
        )
    reply = two.call(request(hostid=A, cpid="a", seqno=2, reports=[("u1_0", "42")], seconds=0))
    assert names(reply, "result_ack") == ["u1_0"] and recorded(twin, "u1_0") == "a"


def test_results_of_a_copy_that_bsched_does_not_know_are_forgotten(two: Bridge, twin: Twin) -> None:
    """As after a restore of older tables: the original may forget them, too."""
    two.call(request(hostid=A, cpid="a", seqno=3, listed=["u1_0"], seconds=0))
    reply = two.call(request(hostid=A, cpid="a", seqno=2, reports=[("u8_0", "42")], seconds=0))
    assert names(reply, "result_ack") == ["u8_0"] and value(reply, "hostid") == str(FIRST + 2)
    assert recorded(twin, "u8_0") is None


def test_jobs_in_hand_of_the_original_stay_for_it(two: Bridge, twin: Twin, project: Path) -> None:
    two.call(request(hostid=A, cpid="a", seqno=3, listed=["u1_0"], seconds=60))  # the reply is lost
    reply = two.call(request(hostid=A, cpid="a", seqno=2, reports=[("u1_0", "42")], seconds=0))
    assert names(reply, "result_ack") == ["u1_0"] and jobs(reply) == []
    assert jobs(two.call(request(hostid=A, cpid="a", seqno=3, listed=["u1_0"], seconds=0))) == ["u3_0"]


def test_a_request_that_is_sent_again_is_no_copy(two: Bridge) -> None:
    for seqno in (3, 3, 4):
        reply = two.call(request(hostid=A, cpid="a", seqno=seqno, listed=["u1_0"], seconds=0))
        assert value(reply, "hostid") is None
    two.restart()
    assert value(two.call(request(hostid=A, cpid="a", seqno=3, seconds=0)), "hostid") == str(FIRST + 2)


def test_a_copy_whose_call_gets_no_answer_is_one_host(two: Bridge, twin: Twin) -> None:
    two.call(request(hostid=A, cpid="a", seqno=3, listed=["u1_0"], seconds=0))
    for _ in range(3):
        twin.faults = ["lost"] * 3
        assert value(two.call(request(hostid=A, cpid="a", seqno=2)), "project_is_down") == "1"
        twin.faults = []
    assert value(two.call(request(hostid=A, cpid="a", seqno=2)), "hostid") == str(FIRST + 2)
    assert len(twin.service.machine.hosts) == 3
    # the reply was lost: the number is the same until it was used
    for _ in range(3):
        assert value(two.call(request(hostid=A, cpid="a", seqno=2)), "hostid") == str(FIRST + 2)
    assert len(twin.service.machine.hosts) == 3
    assert value(two.call(request(hostid=FIRST + 2, cpid="a2", seqno=0)), "hostid") is None
    # another copy of the same computer
    assert value(two.call(request(hostid=A, cpid="a", seqno=2)), "hostid") == str(FIRST + 3)


def test_a_copy_counts_for_the_limit_of_hosts(project: Path, two: Bridge, twin: Twin) -> None:
    with (project / "bridge.toml").open("a") as file:
        file.write("most_hosts = 2\n")
    two.call(request(hostid=A, cpid="a", seqno=3, listed=["u1_0"], seconds=0))
    reply = two.call(request(hostid=A, cpid="a", seqno=2, reports=[("u1_0", "42")]))
    assert "Your account has 2 computers" in value(reply, "message")
    assert names(reply, "result_ack") == []


def test_a_number_of_another_account_is_not_known(two: Bridge, twin: Twin) -> None:
    reply = two.call(request(hostid=A, key="bob-key", cpid="x", seconds=0))
    assert value(reply, "hostid") == str(FIRST + 2)


# ---- An upgraded state file


def test_clients_with_the_former_numbers(two: Bridge, twin: Twin) -> None:
    """Before the upgrade A was told bsched's number in earlier tables, which is that of B now."""
    with two.file.transaction() as connection:
        connection.execute("UPDATE host SET hostid = NULL, client_seqno = NULL")
    reply = two.call(request(hostid=2, cpid="a", seqno=40, reports=[("u1_0", "42")], seconds=0))
    assert names(reply, "result_ack") == ["u1_0"] and recorded(twin, "u1_0") == "a"
    hostid = value(reply, "hostid")
    # the reply is lost, and the client sends the same again
    reply = two.call(request(hostid=2, cpid="a", seqno=40, reports=[("u1_0", "42")], seconds=0))
    assert value(reply, "hostid") == hostid and names(reply, "result_ack") == ["u1_0"]
    assert value(two.call(request(hostid=hostid, cpid="new", seqno=1, seconds=0)), "hostid") is None


def test_a_host_without_a_reply_is_forgotten_after_a_refusal_and_one_with_a_number_is_not(
    two: Bridge, twin: Twin
) -> None:
    twin.faults = ['{"error":"hosts_full","number":12}'] * 2
    two.call(request(cpid="c"))
    two.call(request(hostid=A, cpid="a"))
    known = two.states.of_number("ann-key", A)
    assert known is not None and known.key == Key("ann-key", "a")
    assert two.file.row("SELECT count(*) FROM host") == (2,)


# ---- Calls for a host that are not of its client


def test_a_call_for_another_host_asks_for_no_work_and_takes_no_job(two: Bridge, twin: Twin) -> None:
    """A has u3_0 in hand, since the reply may be lost, when an unknown client reports u1_0 of A."""
    assert jobs(two.call(request(hostid=A, cpid="a", seqno=1, listed=["u1_0"]))) == ["u3_0"]
    before = len(twin.heard)
    reply = two.call(request(hostid=77, cpid="x", reports=[("u1_0", "42")]))
    assert names(reply, "result_ack") == ["u1_0"] and recorded(twin, "u1_0") == "a"
    aside = [call for call in twin.calls()[before:] if call["rpc_seqno"] and call["results"]]
    assert [(call["host_info"]["host_cpid"], call["work_req_seconds"]) for call in aside] == [("a", 0)]
    assert two.states.begin(Key("ann-key", "a")).jobs_in_hand != []
    assert jobs(two.call(request(hostid=A, cpid="a", seqno=2, seconds=0))) == ["u3_0"]
    assert twin.calls()[-1]["other_results"] == ["u3_0"]


def test_an_open_call_of_another_host_is_sent_before(two: Bridge, twin: Twin) -> None:
    twin.faults = ["lost"] * 3
    two.call(request(hostid=A, cpid="a", seqno=1, listed=["u1_0"]))
    before = len(twin.heard)
    two.call(request(hostid=77, cpid="x", reports=[("u1_0", "42")], seconds=0))
    calls = [body for body, call in zip(twin.heard, twin.calls()) if call["rpc_seqno"]]
    number = next(place for place, body in enumerate(twin.heard) if place >= before and body in calls)
    assert twin.heard[number] == twin.heard[before - 1]
    assert jobs(two.call(request(hostid=A, cpid="a", seqno=2, seconds=0))) == ["u3_0"]


def test_a_copy_without_results_makes_no_call_for_its_original(two: Bridge, twin: Twin) -> None:
    two.call(request(hostid=A, cpid="a", seqno=5, listed=["u1_0"], seconds=0))
    twin.service = further_file(twin.service, 1)  # which does not have the original
    before = len(twin.heard)
    two.call(request(hostid=A, cpid="a", seqno=1, listed=["u1_0"], seconds=0))
    keys = [call["host_info"]["host_cpid"] for call in twin.calls()[before:] if call["rpc_seqno"]]
    assert len(keys) == 1 and keys != ["a"]


def test_a_call_for_another_host_asks_for_no_second_of_work(two: Bridge, twin: Twin) -> None:
    before = len(twin.heard)
    two.call(request(hostid=77, cpid="x", reports=[("u1_0", "42")]))
    aside = [call for call in twin.calls()[before:] if call["rpc_seqno"] and call["results"]]
    assert [(call["host_info"]["host_cpid"], call["work_req_seconds"]) for call in aside] == [("a", 0)]
