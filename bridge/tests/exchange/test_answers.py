"""The promises of the bridge: counts, lost answers, restarts, and what a client sees of a refusal."""
import json
import time
from pathlib import Path
from typing import Any

import pytest
from bridges import Bridge
from joining import wait_until
from messages import FIRST, jobs, names, request, value
from twin import Twin

from bsched_bridge.exchange.answers import Resending, jobs_with
from bsched_bridge.exchange.host_states import MOST_OF_STRANGERS
from bsched_bridge.people.hosts import Key
from bsched_bridge.scheduler.messages import Job, NoAnswer, Reply


def test_a_first_call(bridge: Bridge, twin: Twin) -> None:
    reply = bridge.call(request())
    assert value(reply, "hostid") == str(FIRST)
    assert jobs(reply) == ["u1_0"]
    assert value(reply, "user_name") == "Ann"
    call = twin.calls()[0]
    assert (call["hostid"], call["rpc_seqno"], call["other_results"]) == (0, 1, [])


def test_hostid_is_left_out_for_a_client_that_has_one(bridge: Bridge) -> None:
    bridge.call(request())
    assert value(bridge.call(request(hostid=FIRST, listed=["u1_0"])), "hostid") is None
    assert value(bridge.call(request(hostid=77, cpid="c1")), "hostid") == str(FIRST)  # 77 is not its number


def test_the_bridge_counts_by_itself(bridge: Bridge, twin: Twin) -> None:
    for seqno in (5, 5, 0, 7):  # for any number of the client
        bridge.call(request(seqno=seqno, listed=None))
    assert [call["rpc_seqno"] for call in twin.calls()] == [1, 2, 3, 4]


def test_a_host_cpid_that_changes_is_mapped(bridge: Bridge, twin: Twin) -> None:
    bridge.call(request(cpid="first"))
    bridge.call(request(cpid="second", hostid=FIRST))
    assert [call["host_info"]["host_cpid"] for call in twin.calls()] == ["first", "first"]
    assert [call["rpc_seqno"] for call in twin.calls()] == [1, 2]
    bridge.restart()
    bridge.call(request(cpid="third", hostid=FIRST))
    assert twin.calls()[-1]["host_info"]["host_cpid"] == "first"


def test_a_reply_that_the_client_lost(bridge: Bridge) -> None:
    assert jobs(bridge.call(request())) == ["u1_0"]
    assert jobs(bridge.call(request())) == ["u1_0"]  # the client lists nothing, so the job comes again
    assert jobs(bridge.call(request(hostid=FIRST, listed=["u1_0"]))) == ["u2_0"]


def test_a_quorum_brings_credit(bridge: Bridge) -> None:
    bridge.call(request())
    bridge.call(request(key="bob-key", cpid="c2"))
    assert names(bridge.call(request(hostid=FIRST, seconds=0, reports=[("u1_0", "42")])), "result_ack") == [
        "u1_0"
    ]
    reply = bridge.call(
        request(hostid=FIRST + 1, key="bob-key", cpid="c2", seconds=0, reports=[("u1_1", "42")])
    )
    assert value(reply, "user_total_credit") == "5.000"
    assert value(bridge.call(request(hostid=FIRST, seconds=0)), "host_total_credit") == "5.000"


def test_an_answer_that_is_lost_is_asked_for_again_with_the_same_bytes(bridge: Bridge, twin: Twin) -> None:
    twin.faults = ["lost", "lost"]
    assert jobs(bridge.call(request())) == ["u1_0"]
    assert twin.heard[0] == twin.heard[1] == twin.heard[2]
    assert twin.answers[0] == twin.answers[1] == twin.answers[2]


@pytest.mark.parametrize("fault", ["unheard", "lost", "unavailable", "garbage"])
def test_no_answer_is_a_reply_with_a_delay_and_no_loss(bridge: Bridge, twin: Twin, fault: str) -> None:
    bridge.call(request())
    twin.faults = [fault] * 3
    reply = bridge.call(request(hostid=FIRST, reports=[("u1_0", "42")]))
    assert value(reply, "request_delay") == "60.000000"
    assert value(reply, "project_is_down") == "1"
    assert names(reply, "result_ack") == []
    reply = bridge.call(request(hostid=FIRST, reports=[("u1_0", "42")]))
    assert names(reply, "result_ack") == ["u1_0"]
    assert twin.heard[1] == twin.heard[4]  # the call without an answer is sent first
    assert twin.calls()[5]["rpc_seqno"] == 3
    assert len(twin.heard) == 6


def test_members_that_the_bridge_does_not_know_are_passed_over(bridge: Bridge, twin: Twin) -> None:
    handle = twin.service.scheduler

    def newer(body: bytes, now: int) -> str:
        answer = json.loads(handle(body, now))
        jobs = [{**job, "job_news": [1]} for job in answer["results"]]
        return json.dumps({**answer, "results": jobs, "news": {"a": 1}})

    twin.handle = newer
    assert jobs(bridge.call(request())) == ["u1_0"]
    assert len(twin.heard) == 1


def test_an_answer_that_lacks_a_member_is_none(bridge: Bridge, twin: Twin) -> None:
    handle = twin.service.scheduler
    twin.handle = lambda body, now: handle(body, now).replace('"end_word":', '"last_word":')
    assert value(bridge.call(request()), "project_is_down") == "1"


def test_an_answer_that_is_too_long_is_an_error(
    bridge: Bridge, twin: Twin, monkeypatch: pytest.MonkeyPatch, caplog: pytest.LogCaptureFixture
) -> None:
    bridge.call(request())
    longest = max(map(len, twin.answers))
    monkeypatch.setattr("bsched_bridge.scheduler.messages.MOST_ANSWER", longest)
    assert names(bridge.call(request(hostid=FIRST, reports=[("u1_0", "42")], seconds=0)), "result_ack") == [
        "u1_0"
    ]
    monkeypatch.setattr("bsched_bridge.scheduler.messages.MOST_ANSWER", 100)
    assert value(bridge.call(request(hostid=FIRST)), "project_is_down") == "1"
    assert "the answer of bsched to POST /scheduler is longer than 100 bytes" in caplog.text


def test_bsched_that_is_not_there(bridge: Bridge, twin: Twin) -> None:
    twin.close()
    assert value(bridge.call(request()), "project_is_down") == "1"


@pytest.mark.parametrize("resend", [True, False])
@pytest.mark.parametrize("listed", [(), None])
def test_jobs_of_an_answer_that_came_too_late_are_kept(
    project: Path, monkeypatch: pytest.MonkeyPatch, resend: bool, listed: tuple[Any, ...] | None
) -> None:
    from bridges import Bridge

    monkeypatch.setattr("bsched_bridge.scheduler.messages.PAUSE_SECONDS", 0.0)
    twin = Twin(resend_lost_results=resend)
    bridge = Bridge(project, twin)
    twin.faults = ["lost"] * 3
    assert value(bridge.call(request()), "project_is_down") == "1"
    bridge.restart()
    reply = bridge.call(request(listed=listed, seconds=61))
    assert twin.heard[2] == twin.heard[3]
    # the job of the late answer, and one more for the second that it does not fill
    assert jobs(reply) == ["u1_0", "u2_0"]
    assert value(reply, "hostid") == str(FIRST)
    assert jobs(bridge.call(request(hostid=FIRST, listed=["u1_0", "u2_0"], seconds=0))) == []
    bridge.file.close()
    twin.close()


@pytest.mark.parametrize("is_restarted", [True, False])
def test_jobs_of_a_reply_that_the_client_lost_go_out_once_more(
    project: Path, monkeypatch: pytest.MonkeyPatch, is_restarted: bool
) -> None:
    from bridges import Bridge

    twin = Twin(resend_lost_results=False)
    bridge = Bridge(project, twin)
    assert jobs(bridge.call(request(seconds=61))) == ["u1_0", "u2_0"]
    if is_restarted:
        bridge.restart()
    # the client has only one of them; for bsched it has both, and the seconds of the other one are there
    reply = bridge.call(request(hostid=FIRST, listed=["u1_0"], seconds=61))
    assert jobs(reply) == ["u2_0", "u3_0"]
    assert twin.calls()[1]["other_results"] == ["u1_0", "u2_0"]
    assert twin.calls()[1]["work_req_seconds"] == 1
    # this reply is lost, too: only the job that went out once goes out again
    assert jobs(bridge.call(request(hostid=FIRST, listed=["u1_0"], seconds=0))) == ["u3_0"]
    assert jobs(bridge.call(request(hostid=FIRST, listed=["u1_0"], seconds=0))) == []
    bridge.file.close()
    twin.close()


def test_jobs_that_the_client_reports_are_not_in_hand(bridge: Bridge, twin: Twin) -> None:
    assert jobs(bridge.call(request())) == ["u1_0"]
    reply = bridge.call(request(hostid=FIRST, listed=[], reports=[("u1_0", "42")], seconds=0))
    assert (jobs(reply), names(reply, "result_ack")) == ([], ["u1_0"])
    assert twin.calls()[1]["other_results"] == []


def test_a_client_that_lists_nothing_gets_no_job_twice(bridge: Bridge, twin: Twin) -> None:
    assert jobs(bridge.call(request(listed=None))) == ["u1_0"]
    assert jobs(bridge.call(request(hostid=FIRST, listed=None))) == ["u2_0"]
    assert twin.calls()[1]["work_req_seconds"] == 60


def test_a_stop_between_a_call_and_its_answer(bridge: Bridge, twin: Twin) -> None:
    """When bsched gets a call, the call's bytes are in the state file. So a stop at that moment leaves enough
    to continue.
    """
    bridge.call(request())
    seen: list[tuple[bytes, bytes | None]] = []
    handle = twin.service.scheduler

    def looked(body: bytes, now: int) -> str:
        seen.append((body, bridge.states.begin(Key("ann-key", "c1")).in_file.open_call))
        return handle(body, now)

    twin.handle = looked
    bridge.call(request(hostid=FIRST, listed=["u1_0"]))
    assert seen[0][0] == seen[0][1]


def test_open_calls_are_sent_again_at_the_start(bridge: Bridge, twin: Twin) -> None:
    bridge.call(request())
    twin.faults = ["unheard"] * 3
    bridge.call(request(hostid=FIRST, reports=[("u1_0", "42")], seconds=0))
    bridge.restart()
    resending = Resending(bridge.application.exchange, 0.01)
    resending.start()
    wait_until(lambda: bridge.states.next_open(0) is None)
    resending.end()
    assert twin.heard[3] == twin.heard[4]
    assert len(twin.heard) == 5  # and no more after the answer
    assert json.loads(twin.answers[-1])["result_ack"] == ["u1_0"]


def test_a_call_that_gets_no_answer_does_not_keep_others_from_theirs(bridge: Bridge, twin: Twin) -> None:
    twin.faults = ["unheard"] * 6
    bridge.call(request())
    bridge.call(request(key="bob-key", cpid="c2"))
    handle = twin.service.scheduler

    def fails_for_ann(body: bytes, now: int) -> str:
        if b"ann-key" in body:
            raise OSError("no answer")
        return handle(body, now)

    twin.handle = fails_for_ann
    resending = Resending(bridge.application.exchange, 0.01)
    resending.start()
    ann, bob = Key("ann-key", "c1"), Key("bob-key", "c2")
    wait_until(lambda: bridge.states.begin(bob).in_file.open_call is None)
    assert bridge.states.begin(ann).in_file.open_call == twin.heard[0]
    twin.handle = None
    wait_until(lambda: bridge.states.begin(ann).in_file.open_call is None)
    resending.end()


def test_late_answers_are_not_handed_on_twice(bridge: Bridge, twin: Twin) -> None:
    twin.faults = ["lost"] * 3
    bridge.call(request())
    bridge.application.exchange.resend(Key("ann-key", "c1"))
    assert jobs(bridge.call(request(listed=["u1_0"], seconds=0))) == []  # the client has it by now


def test_jobs_in_hand_that_bsched_aborts_or_acknowledges_are_not_handed_on() -> None:
    a, b, c, d = (Job(f"{name}_0", name, "sum", "linux", 1, 60, 1000, False) for name in "abcd")
    reply = Reply(1, "Ann", 0, 0, 60, "enough", ["b_0"], ["a_0"], [c], 1)
    assert [job.name for job in jobs_with(reply, [a, b, c, d])] == ["d_0", "c_0"]


@pytest.mark.parametrize("status", [500, 502, 503])
def test_a_server_error_is_no_answer(
    bridge: Bridge, twin: Twin, monkeypatch: pytest.MonkeyPatch, status: int
) -> None:
    bridge.call(request())
    refusal = '{"error":"hosts_full","number":12}'.encode()
    monkeypatch.setattr(bridge.application.scheduler, "_exchange", lambda *_words: (status, refusal))
    assert value(bridge.call(request(hostid=FIRST)), "project_is_down") == "1"


def test_a_computer_that_used_all_its_numbers(bridge: Bridge) -> None:
    bridge.call(request())
    with bridge.file.transaction() as connection:
        connection.execute("UPDATE host_file SET last_number = 2147483647")
    reply = bridge.call(request(hostid=FIRST, reports=[("u1_0", "42")]))
    assert "This computer has called so often" in value(reply, "message") and names(reply, "result_ack") == []
    assert value(reply, "request_delay") == "86400.000000"


def test_imports_that_get_no_answer_keep_no_calls_from_theirs(bridge: Bridge, twin: Twin) -> None:
    twin.faults = ["unheard"] * 3
    bridge.call(request())

    def imports() -> None:
        raise NoAnswer("no answer")

    resending = Resending(bridge.application.exchange, 0.01, imports)
    resending.start()
    wait_until(lambda: bridge.states.begin(Key("ann-key", "c1")).in_file.open_call is None)
    resending.end()


def test_a_count_that_was_lost_goes_on(bridge: Bridge, twin: Twin, project: Path) -> None:
    for _ in range(3):
        bridge.call(request())
    bridge.file.close()
    for path in project.glob("bridge.db*"):
        path.unlink()
    bridge.start()
    assert value(bridge.call(request(seconds=90)), "hostid") == str(FIRST)
    assert [call["rpc_seqno"] for call in twin.calls()[3:]] == [1, 4]
    bridge.call(request())
    assert twin.calls()[-1]["rpc_seqno"] == 5


# what a client reads after each refusal of the profile, if a call gets it; no call gets those of operators'
# messages
REFUSED = ("refused this request", "3600.000000", "low")
REFUSALS = {
    "bad_http": REFUSED,
    "no_route": REFUSED,
    "wrong_method": REFUSED,
    "length_required": REFUSED,
    "too_large": ("too large", "3600.000000", "low"),
    "bad_json": ("can't read this request", "3600.000000", "low"),
    "bad_member": ("can't read what this computer says", "86400.000000", "notice"),
    "bad_account": ("Invalid or missing account key", "86400.000000", "notice"),
    "bad_host": REFUSED,
    "stale": REFUSED,  # three times in a row; the bridge handles a single one itself
    "reused": REFUSED,
    "hosts_full": ("takes no more computers", "86400.000000", "notice"),
    **dict.fromkeys(
        [
            "not_operator",
            "bad_csv",
            "duplicate_name",
            "unknown_reference",
            "batch_reused",
            "table_full",
            "no_such_host",
            "new",
        ],
        REFUSED,
    ),
    "unavailable": ("gives no answer at the moment", "60.000000", "low"),
}


@pytest.mark.parametrize("error", REFUSALS)
def test_refusals(bridge: Bridge, twin: Twin, error: str) -> None:
    message, delay, priority = REFUSALS[error]
    bridge.call(request())
    more = {"last": 5} if error in ("stale", "reused") else {}
    twin.faults = [json.dumps({"error": error, "number": 1, **more})] * (
        1 if not more and error != "unavailable" else 3
    )
    reply = bridge.call(request(hostid=FIRST, reports=[("u1_0", "42")]))
    assert message in value(reply, "message")
    assert f'priority="{priority}"' in reply.decode()
    assert value(reply, "request_delay") == delay
    assert value(reply, "project_is_down") == ("1" if error == "unavailable" else None)
    assert names(reply, "result_ack") == []
    assert names(bridge.call(request(hostid=FIRST, reports=[("u1_0", "42")])), "result_ack") == ["u1_0"]


def test_a_faulty_member_is_named(bridge: Bridge, twin: Twin) -> None:
    twin.faults = ['{"error":"bad_member","member":"platform_name","number":7}']
    assert "(platform_name)" in value(bridge.call(request()), "message")


@pytest.mark.parametrize("error", ["stale", "reused"])
def test_a_count_behind_that_of_bsched(bridge: Bridge, twin: Twin, error: str) -> None:
    twin.faults = [json.dumps({"error": error, "last": 41, "number": 10})]
    bridge.call(request())
    assert [call["rpc_seqno"] for call in twin.calls()] == [1, 42]
    twin.faults = [json.dumps({"error": error, "last": last, "number": 10}) for last in (50, 60, 70)]
    assert "refused" in value(bridge.call(request(hostid=FIRST)), "message")  # after three attempts
    assert [call["rpc_seqno"] for call in twin.calls()[2:]] == [43, 51, 61]


def test_an_account_that_does_not_stand_leaves_nothing(bridge: Bridge) -> None:
    assert "Invalid or missing account key" in value(bridge.call(request(key="nobody")), "message")
    assert bridge.file.row("SELECT count(*) FROM host") == (0,)


def made_up(number: int) -> str:
    """Returns a long request of an account that somebody made up."""
    return request(key=f"made-up-{number}", reports=[(f"u{n}_0", "x" * 1000) for n in range(250)])


def test_calls_of_accounts_that_somebody_made_up_take_no_disk(
    project: Path, bridge: Bridge, twin: Twin
) -> None:
    def disk() -> int:
        return sum(path.stat().st_size for path in project.glob("bridge.db*"))

    twin.faults = ["unheard"] * 10_000
    before = disk()
    for number in range(100):
        assert value(bridge.call(made_up(number)), "project_is_down") == "1"
    assert disk() - before < 2_000_000  # the first call, in the file and its log
    # a host of an account that bsched has gets its jobs as soon as there are answers
    assert value(bridge.call(request()), "project_is_down") == "1"
    twin.faults = []
    assert jobs(bridge.call(request())) == ["u1_0"]
    assert "Invalid or missing account key" in value(bridge.call(made_up(0)), "message")


def test_calls_of_unknown_accounts_are_limited(
    bridge: Bridge, twin: Twin, monkeypatch: pytest.MonkeyPatch
) -> None:
    monkeypatch.setattr(
        "bsched_bridge.exchange.large_calls.MANY_STRANGERS", 1000
    )  # else calls are looked at before
    twin.faults = ["unheard"] * 10_000
    for number in range(MOST_OF_STRANGERS + 5):
        bridge.application.scheduler.silent_since = None  # as if another message had an answer meanwhile
        bridge.call(request(key=f"made-up-{number}"))
    assert bridge.file.row("SELECT count(*) FROM host") == (MOST_OF_STRANGERS,)
    twin.faults = []
    assert jobs(bridge.call(request())) == ["u1_0"]


def test_calls_of_known_hosts_and_accounts_are_stored(bridge: Bridge, twin: Twin) -> None:
    bridge.call(request())
    twin.faults = ["unheard"] * 9
    for cpid, hostid in (("c1", FIRST), ("c2", 0), ("c3", 0)):
        bridge.call(request(cpid=cpid, hostid=hostid))
    assert bridge.file.row("SELECT count(*) FROM host_file WHERE open_call IS NOT NULL") == (3,)


def test_a_resent_call_that_is_refused_is_let_go(bridge: Bridge, twin: Twin) -> None:
    twin.faults = [*["unheard"] * 3, '{"error":"hosts_full","number":12}']
    bridge.call(request())
    assert jobs(bridge.call(request())) == ["u1_0"]


def test_a_call_that_was_sent_again_and_is_refused_is_closed(bridge: Bridge, twin: Twin) -> None:
    bridge.call(request())
    twin.faults = ["unheard"] * 3
    bridge.call(request(hostid=FIRST, listed=["u1_0"]))
    twin.faults = ['{"error":"hosts_full","number":12}']
    bridge.application.exchange.resend(Key("ann-key", "c1"))
    assert bridge.states.begin(Key("ann-key", "c1")).in_file.open_call is None
    assert bridge.states.next_open(0) is None


def test_the_thread_that_sends_again_pauses_and_ends(bridge: Bridge) -> None:
    began: list[float] = []

    def imports() -> None:
        began.append(time.monotonic())
        time.sleep(0.2)

    resending = Resending(bridge.application.exchange, 60, imports)
    assert resending.daemon  # the process can end without it
    resending.start()
    wait_until(lambda: began)
    resending.end()
    assert not resending.is_alive() and time.monotonic() - began[0] >= 0.2
    began.clear()
    resending = Resending(bridge.application.exchange, 0.05, imports)
    resending.start()
    wait_until(lambda: len(began) >= 3)  # once in each round
    resending.end()
    assert began[2] - began[1] >= 0.25
