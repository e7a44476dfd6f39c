"""The JSON of calls, at the limits of the profile."""
import json
from dataclasses import replace
from typing import Any

import pytest
from messages import request
from plain_formats import record_of

from bsched_bridge.requests import calls
from bsched_bridge.requests.client_requests import ClientRequest, Report, read_request

REQUEST = read_request([request(hostid=7).encode()])


def call(asked: ClientRequest, in_hand: list[str] | tuple[Any, ...] = (), seconds: int = 0) -> dict[str, Any]:
    """Returns the record of the call of a request. The twin's reader must accept it."""
    body = calls.call_text(asked, "made", 5, list(in_hand), seconds)
    record_of(body)
    sent: dict[str, Any] = json.loads(body)
    return sent


def test_a_call() -> None:
    assert call(REQUEST) == {
        "authenticator": "ann-key",
        "hostid": 0,
        "rpc_seqno": 5,
        "host_info": {
            "host_cpid": "made",
            "p_fpops": 10**9,
            "m_nbytes": 8 * 10**9,
            "d_free": 8 * 10**9,
        },
        "platform_name": "x86_64-pc-linux-gnu",
        "alt_platforms": [],
        "work_req_seconds": 60,
        "other_results": [],
        "results": [],
    }


def test_no_list_is_another_request_than_an_empty_one() -> None:
    assert "other_results" not in call(replace(REQUEST, other_results=None))


def test_jobs_in_hand_are_told_as_had() -> None:
    sent = call(replace(REQUEST, other_results=("u1_0",)), ["u2_0", "u1_0"], 20)
    assert sent["other_results"] == ["u1_0", "u2_0"]
    assert sent["work_req_seconds"] == 40
    assert call(REQUEST, ["u2_0"], 100)["work_req_seconds"] == 0
    assert "other_results" not in call(replace(REQUEST, other_results=None), ["u2_0"], 20)


def test_more_reports_than_fit_are_told_by_name() -> None:
    sent = call(replace(REQUEST, results=tuple(Report(f"u_{number}", 0, "") for number in range(300))))
    assert [report["name"] for report in sent["results"]] == [f"u_{number}" for number in range(256)]
    assert sent["other_results"] == [f"u_{number}" for number in range(256, 300)]


def test_more_names_than_fit_are_left_out() -> None:
    names = tuple(f"u_{number}" for number in range(1024))
    assert len(call(replace(REQUEST, other_results=names))["other_results"]) == 1024
    assert "other_results" not in call(replace(REQUEST, other_results=(*names, "more")))
    results = tuple(Report(f"r_{number}", 0, "") for number in range(257))
    assert "other_results" not in call(replace(REQUEST, other_results=names, results=results))


@pytest.mark.parametrize(
    "output",
    ["x" * 1024, "\x01" * 1024, '"' * 1024, "é" * 512],
    ids=["plain", "control", "quotes", "accents"],
)
@pytest.mark.parametrize("length", [5, 254])
@pytest.mark.parametrize("listed", [None, 0, 700, 1024])
def test_no_call_is_too_large(output: str, length: int, listed: int | None) -> None:
    results = tuple(Report(f"{number:04}".rjust(length, "r"), 0, output) for number in range(300))
    other = None if listed is None else tuple(f"{number:04}".rjust(length, "o") for number in range(listed))
    sent = call(replace(REQUEST, results=results, other_results=other))
    assert sent["results"]
    if "other_results" in sent:  # each result is either reported or listed
        assert len(sent["results"]) + len(sent["other_results"]) == 300 + (listed or 0)
