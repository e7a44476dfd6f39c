"""Tests a bridge whose bsched serves a later file of the project: clients know its results by other names."""
import random
import re
from pathlib import Path
from typing import Any

import pytest
from bridges import Bridge
from messages import FIRST, jobs, names, request, value
from random_lives import LIFE_SETTINGS, Life, SimulatedClock, life_twin
from twin import Twin
from uploading import DATA, DONE, NEVER, file_info, report, sent, sha256_of, tokens_of, upload, url_of

from bsched_bridge.scheduler.messages import statement_in_file

FILE, NAME = 12, "u1~12_0_0"  # of the output file of a result


@pytest.fixture
def later(bridge: Bridge) -> Bridge:
    """A bridge over file 12."""
    bridge.application.scheduler.file = FILE
    return bridge


def call_of(twin: Twin) -> dict[str, Any]:
    """Returns the last call that bsched heard."""
    call: dict[str, Any] = twin.calls()[-1]
    return call


def reported(call: dict[str, Any]) -> list[str]:
    """Returns the names of the reports in a call."""
    return [report["name"] for report in call["results"]]


def test_a_job_has_the_number_of_its_file(later: Bridge) -> None:
    reply = later.call(request())
    assert jobs(reply) == ["u1~12_0"]
    assert names(reply, "workunit") == ["u1~12"]
    assert b"<wu_name>u1~12</wu_name>" in reply
    assert b"<command_line>--name u1</command_line>" in reply  # {workunit} is bsched's name


def test_an_entry_of_the_catalogue_has_the_name_of_bsched(later: Bridge) -> None:
    later.call(request())
    reply = later.call(request(hostid=FIRST, listed=["u1~12_0"]))
    assert jobs(reply) == ["u2~12_0"]
    assert b"<command_line>--two &lt;2&gt;</command_line>" in reply


def test_bsched_hears_its_own_names(later: Bridge, twin: Twin) -> None:
    later.call(request())
    later.call(request(hostid=FIRST, listed=["u1~12_0"]))
    reply = later.call(request(hostid=FIRST, listed=["u2~12_0"], reports=[("u1~12_0", "42")], seconds=0))
    assert names(reply, "result_ack") == ["u1~12_0"]
    call = call_of(twin)
    assert (reported(call), call["other_results"]) == (["u1_0"], ["u2_0"])
    assert b"~" not in b"".join(twin.heard)


def test_a_quorum_brings_credit(later: Bridge) -> None:
    later.call(request())
    later.call(request(key="bob-key", cpid="c2"))
    later.call(request(hostid=FIRST, seconds=0, reports=[("u1~12_0", "42")]))
    reply = later.call(
        request(hostid=FIRST + 1, key="bob-key", cpid="c2", seconds=0, reports=[("u1~12_1", "42")])
    )
    assert names(reply, "result_ack") == ["u1~12_1"]
    assert value(reply, "user_total_credit") == "5.000"


def test_a_reply_that_the_client_lost(later: Bridge, twin: Twin) -> None:
    """The jobs in hand are listed by bsched's names, and go out again by the client's."""
    assert jobs(later.call(request())) == ["u1~12_0"]
    assert jobs(later.call(request(hostid=FIRST, seconds=0))) == ["u1~12_0"]
    assert call_of(twin)["other_results"] == ["u1_0"]
    later.restart()
    later.application.scheduler.file = FILE
    assert jobs(later.call(request(hostid=FIRST, seconds=0))) == ["u1~12_0"]


def test_an_answer_that_came_late(later: Bridge, twin: Twin) -> None:
    twin.faults = ["lost"] * 3
    assert jobs(later.call(request())) == []
    assert jobs(later.call(request())) == ["u1~12_0"]
    assert twin.heard[0] == twin.heard[3]


def test_a_job_that_nobody_needs_is_aborted(later: Bridge) -> None:
    later.call(request())
    reply = later.call(request(hostid=FIRST, listed=["u1~12_0", "u7~12_3"], seconds=0))
    assert names(reply, "result_abort") == ["u7~12_3"]


@pytest.mark.parametrize("other", ["u1_0", "u1~13_0", "u1~012_0", "u1~1_0", "u1~12", "u1~12_0_0", "~12_0"])
def test_a_result_of_another_file_is_not_reported(later: Bridge, twin: Twin, other: str) -> None:
    """bsched would acknowledge it, and the work would be lost."""
    later.call(request())
    reply = later.call(
        request(hostid=FIRST, listed=[other], seconds=0, reports=[(other, "1"), ("u1~12_0", "42")])
    )
    assert names(reply, "result_ack") == ["u1~12_0"]
    assert names(reply, "result_abort") == []
    assert f"which computer got {other}" in reply.decode()
    call = call_of(twin)
    assert (reported(call), call["other_results"]) == (["u1_0"], [])


def test_a_listed_result_of_another_file_needs_no_notice(later: Bridge, twin: Twin) -> None:
    later.call(request())
    reply = later.call(request(hostid=FIRST, listed=["u1~12_0", "u5~13_0", "u6_0"], seconds=0))
    assert names(reply, "result_abort") == [] and b"<message" not in reply
    assert call_of(twin)["other_results"] == ["u1_0"]


def test_in_file_1_a_name_with_a_mark_is_of_another_file(bridge: Bridge, twin: Twin) -> None:
    bridge.call(request())
    reply = bridge.call(
        request(hostid=FIRST, listed=["u5~2_0"], seconds=0, reports=[("u1~2_0", "1"), ("u1_0", "42")])
    )
    assert names(reply, "result_ack") == ["u1_0"]
    assert names(reply, "result_abort") == []
    call = call_of(twin)
    assert (reported(call), call["other_results"]) == (["u1_0"], [])


def test_the_bridge_logs_one_line_in_a_minute(later: Bridge, caplog: pytest.LogCaptureFixture) -> None:
    later.call(request())
    for _ in range(3):
        later.call(request(hostid=FIRST, seconds=0, reports=[("u1~13_0", "1")]))
    assert caplog.text.count("is of another file") == 1
    assert "ann-key" not in caplog.text


def test_a_client_without_a_number_is_found_by_its_results(later: Bridge, twin: Twin) -> None:
    """The statements have bsched's names, and the client has its own."""
    later.call(request())
    reply = later.call(request(cpid="c1", seconds=0, reports=[("u1~12_0", "42")]))
    assert names(reply, "result_ack") == ["u1~12_0"]
    assert value(reply, "hostid") == str(FIRST)
    assert call_of(twin)["hostid"] in (0, 1)


def test_a_statement_has_the_names_of_clients() -> None:
    text = "result,app,sent\nu1_0,sum,x_y\na_b_3,sum_2,x\ntotal,,,,,,,5.000\n"
    assert statement_in_file(text, 1) == text
    assert (
        statement_in_file(text, FILE)
        == "result,app,sent\nu1~12_0,sum,x_y\na_b~12_3,sum_2,x\ntotal,,,,,,,5.000\n"
    )


def test_uploads_have_the_names_of_clients(file_bridge: Bridge, twin: Twin) -> None:
    """From the reply to the end of the job."""
    file_bridge.application.scheduler.file = FILE
    reply = file_bridge.call(request())
    assert f"<url>http://127.0.0.1:8081{url_of(file_bridge, NAME)}</url>".encode() in reply
    assert f"<file_name>{NAME}</file_name>".encode() in reply
    tokens = tokens_of(reply)
    assert list(tokens) == [NAME, "u1~12_0_1"]
    message = upload(NAME, DATA, tokens[NAME])
    assert sent(file_bridge, message) == DONE
    reply = file_bridge.call(report("u1~12_0", [file_info(NAME, DATA)]))
    assert names(reply, "result_ack") == ["u1~12_0"]
    (heard,) = call_of(twin)["results"]
    assert (heard["name"], heard["exit_status"]) == ("u1_0", 0)
    assert heard["output"].startswith(f"out sha256:{sha256_of(DATA)}")
    assert sent(file_bridge, message) == NEVER  # its job has ended


def test_a_report_without_its_file_is_an_error(file_bridge: Bridge, twin: Twin) -> None:
    """The name of bsched's own result names no upload."""
    file_bridge.application.scheduler.file = FILE
    file_bridge.call(request())
    file_bridge.call(report("u1~12_0", [file_info("u1_0_0", DATA)]))
    assert [one["exit_status"] for one in call_of(twin)["results"]] == [-187]


def test_a_job_that_the_bridge_forgot_is_found_in_the_statement(file_bridge: Bridge, twin: Twin) -> None:
    file_bridge.application.scheduler.file = FILE
    tokens = tokens_of(file_bridge.call(request()))
    with file_bridge.store.tables.transaction() as connection:
        connection.execute("DELETE FROM job")
    assert sent(file_bridge, upload(NAME, DATA, tokens[NAME])) == DONE
    reply = file_bridge.call(report("u1~12_0", [file_info(NAME, DATA)]))
    assert names(reply, "result_ack") == ["u1~12_0"]
    assert [one["exit_status"] for one in call_of(twin)["results"]] == [0]


# ---- Random lives


class LaterBridge(Bridge):
    """A bridge over file 12. It gives bsched's names to the clients of a life, which compares them with the
    tables, and takes them from these clients.
    """

    def start(self) -> None:
        """Starts the bridge with what its file has."""
        super().start()
        self.application.scheduler.file = FILE

    def call(self, body: bytes | str) -> bytes:
        """Returns the reply to a scheduler_request."""
        text = body if isinstance(body, str) else body.decode()
        reply = super().call(re.sub("_([0-9]+)</name>", rf"~{FILE}_\1</name>", text))
        known = [name for what in ("result", "result_ack", "result_abort") for name in names(reply, what)]
        assert all(f"~{FILE}_" in name for name in known), known
        return reply.replace(f"~{FILE}".encode(), b"")


@pytest.mark.parametrize("seed", range(4))
def test_a_life_in_a_later_file(project: Path, monkeypatch: pytest.MonkeyPatch, seed: int) -> None:
    clock, twin = SimulatedClock(), life_twin()
    clock.replaces(monkeypatch.setattr)
    with (project / "bridge.toml").open("a") as file:
        file.write(LIFE_SETTINGS)
    bridge = LaterBridge(project, twin)
    life = Life(bridge, twin, random.Random(seed), clock)
    for _ in range(120):
        life.step()
    life.end()
    assert life.counts["acknowledged"] > 0
    assert not any(b"~" in body for body in twin.heard)
    bridge.file.close()
    twin.close()
