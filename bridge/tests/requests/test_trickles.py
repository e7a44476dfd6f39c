"""Messages of programs, which the client sends as they are."""
import time
from typing import Any

import pytest
from bridges import Bridge
from messages import FIRST, jobs, request, value

from bsched_bridge.requests import client_requests
from bsched_bridge.requests.client_requests import ClientRequest
from bsched_bridge.requests.parts import RequestFault

# as client 7.20.5 sends it, after the last result and before <app_versions>
MESSAGE = (
    "<msg_from_host>\n      <result_name>u1_0</result_name>\n      <time>1795931199</time>\n"
    "<variety>steps</variety>\nTEXT\n\n  </msg_from_host>\n"
)


def read_request(body: bytes) -> ClientRequest:
    """Returns the request in a body."""
    return client_requests.read_request([body])


def with_messages(*texts: str, **more: Any) -> str:
    """Returns a request with the messages of a program."""
    messages = "".join(MESSAGE.replace("TEXT", text) for text in texts)
    return request(**more).replace(
        "<other_results>", f"{messages}<app_versions></app_versions>\n<other_results>", 1
    )


@pytest.mark.parametrize(
    "text",
    [
        "<step>2</step>",
        "a < b",
        "&nothing;",
        "<unclosed>",
        "]]>",
        "<result>",
        "</scheduler_request>",
        "<stderr_out>",
        "<stderr_out><![CDATA[",
        "</msg_from_host>",
        "<msg_from_host>",
        "\x00\xff",
        "<hostid>7</hostid><result><name>u9_9</name><exit_status>0</exit_status><state>5</state></result>",
    ],
)
def test_a_message_of_any_text_is_left_out(text: str) -> None:
    body = with_messages(text, "<step>3</step>", hostid=FIRST, listed=["u2_0"], reports=[("u1_0", "5")])
    parsed = read_request(body.encode("latin-1"))
    assert parsed.has_messages
    assert (parsed.hostid, parsed.other_results) == (FIRST, ("u2_0",))
    assert [report.name for report in parsed.results] == ["u1_0"]


@pytest.mark.parametrize("output", [MESSAGE, "<msg_from_host>", "</msg_from_host>", "a <stderr_out>"])
def test_what_a_program_wrote_to_its_standard_error_is_no_message(output: str) -> None:
    plain = request(reports=[("u1_0", output), ("u2_0", "5")]).encode()
    parsed = read_request(plain)
    assert not parsed.has_messages
    assert [report.output for report in parsed.results] == [output.strip(), "5"]
    parsed = read_request(with_messages("a < b", reports=[("u1_0", output), ("u2_0", "5")]).encode())
    assert parsed.has_messages
    assert [report.output for report in parsed.results] == [output.strip(), "5"]


def test_messages_are_looked_for_once() -> None:
    began = time.process_time()
    for part in (
        b"<stderr_out></stderr_out>",
        b"<stderr_out>",
        b"<msg_from_host>",
        b"<stderr_out></stderr_out>x",
    ):
        with pytest.raises(RequestFault):
            read_request(b"<scheduler_request>" + part * 600_000 + b"<msg_from_host>")
    assert time.process_time() - began < 30  # otherwise it would take hours


def test_a_host_whose_program_sends_no_xml_can_report(bridge: Bridge) -> None:
    assert jobs(bridge.call(request())) == ["u1_0"]
    reply = bridge.call(with_messages("a < b", hostid=FIRST, reports=[("u1_0", "5")], seconds=0))
    assert value(reply, "message_ack") == "1"
    assert "<result_ack>" in reply.decode()
    assert value(bridge.call(request(hostid=FIRST, seconds=0)), "message_ack") is None


def test_a_reply_that_puts_a_request_off_acknowledges_no_message(bridge: Bridge) -> None:
    bridge.twin.faults = ["unavailable"] * 3
    reply = bridge.call(with_messages("a < b"))
    assert value(reply, "project_is_down") == "1"
    assert value(reply, "message_ack") is None
