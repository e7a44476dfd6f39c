"""The parts of a request as it arrives: XML, and what programs wrote."""
import re
import time

import pytest
from hypothesis import example, given
from hypothesis import strategies as st
from messages import request
from recorded_requests import read_request, recorded

from bsched_bridge.requests import parts as request_parts
from bsched_bridge.requests.client_requests import Report
from bsched_bridge.requests.parts import Parts, RequestFault, between


@pytest.mark.parametrize(
    "output, read",
    [
        (b"\xff\x01ok", "\ufffd\ufffdok"),
        (b"a &amp; <b>", "a &amp; <b>"),
        (b"", ""),
        ("smile \U0001f600".encode(), "smile \U0001f600"),
        (b"&#195;&#169; &#65; &#256; &#1;", "é &#65; &#256; &#1;"),
        (b"&#255;", "\ufffd"),
        (b"]]>", "]]>"),
        (b"a ]]> b ]]>]]> c", "a ]]> b ]]>]]> c"),
        (b"]]]>", "]]]>"),
        (b"<![CDATA[ x ]]>", "<![CDATA[ x ]]>"),
        (b"]]>\n<name>u9_9</name>", "]]>\n<name>u9_9</name>"),
    ],
)
def test_standard_error_of_any_bytes(output: bytes, read: str) -> None:
    body = request(reports=[("u1_0", "HERE")]).encode().replace(b"HERE", output)
    assert read_request(body).results[0].output == read


def test_each_result_has_its_own_standard_error() -> None:
    body = request(reports=[("u1_0", "a ]]> b"), ("u2_0", "c"), ("u3_0", "]]>")])
    assert [report.output for report in read_request(body.encode()).results] == ["a ]]> b", "c", "]]>"]


def test_sections_are_looked_at_once() -> None:
    part = b"<stderr_out><![CDATA["
    began = time.process_time()
    for body in (part * 350_000, (part + b"]]>") * 350_000, (part + b"]]></stderr_out>") * 200_000):
        with pytest.raises(RequestFault):
            read_request(body)
    assert time.process_time() - began < 60  # each section is looked at once; otherwise it would take hours


PARTS = [b"<t>", b"</t>", b"<", b">", b"t", b"/", b"\n", b"\r", b"\xe2", b"\xa8"]


@given(st.lists(st.sampled_from(PARTS), max_size=12).map(b"".join))
@example(b"</t><t>a<t>b</t>c</t>d")
@example(b"<t></t>")
@example(b"<t>a")
def test_what_is_between_two_tags(text: bytes) -> None:
    for pattern, to_the_last in ((b"<t>(.*?)</t>", False), (b"<t>(.*)</t>", True)):
        found = re.search(pattern, text, re.DOTALL)
        assert between(text, b"<t>", b"</t>", to_the_last) == (found and found[1])


@pytest.mark.parametrize("name", ["first", "reports", "unlisted"])
@given(size=st.integers(1, 300))
def test_the_size_of_blocks_makes_no_difference(name: str, size: int) -> None:
    assert read_request(recorded(name), size) == read_request(recorded(name))


@given(
    st.lists(
        st.sampled_from(["]]>", "</stderr_out>", "<stderr_out>", "<![CDATA[", "é", "\n", "<answer>", "x"]),
        max_size=70,  # of more than 1,024 bytes a part is read
    ),
    st.integers(1, 60),
)
def test_any_standard_error_in_blocks_of_any_size(parts: list[str], size: int) -> None:
    output = "".join(parts)
    body = request(reports=[("u1_0", "HERE"), ("u2_0", "two")]).replace("HERE", f"<answer>{output}</answer>")
    expected = output.partition("</answer>")[0].strip()
    if re.search(r"]]>\s*</stderr_out>", output) is None:
        assert [one.output for one in read_request(body.encode(), size).results] == [expected, "two"]


def test_messages_of_programs_are_left_out() -> None:
    message = (
        "<msg_from_host>\n<result_name>u1_0</result_name>\n<text>a < b & c]]>\x01</text>\n</msg_from_host>\n"
    )
    body = request(extra=message * 2, reports=[("u1_0", "<msg_from_host>")]).encode()
    assert read_request(body).results == (Report("u1_0", 0, "<msg_from_host>"),)
    with pytest.raises(RequestFault):
        read_request(request(extra="<msg_from_host>").encode())


@pytest.mark.parametrize("tag", ["<answer>", "<stderr_txt>", "<stderr_txt><answer>"])
def test_tags_that_are_never_closed(tag: str) -> None:
    output = tag * (request_parts.MOST_ERROR // 25)
    assert (
        read_request(
            request(reports=[("u1_0", "")]).replace("<stderr_txt>\n\n</stderr_txt>", output).encode()
        )
        .results[0]
        .output
        == output[:1024]
    )


def test_ends_within_a_standard_error() -> None:
    def output(text: str) -> str:
        (result,) = read_request(request(reports=[("u1_0", text)]).encode()).results
        return result.output

    assert output("a</stderr_txt>b") == "a</stderr_txt>b"  # up to the last end
    assert output("<answer>1</answer> or <answer>2</answer>") == "1"  # the first answer


def test_a_request_that_ends_in_a_standard_error_or_a_message() -> None:
    begin = request(reports=[("u1_0", "42")]).encode().partition(b"42")[0]
    with pytest.raises(RequestFault, match="the request is incomplete"):
        read_request(begin)
    assert b"".join(Parts([b"<a><msg_from_host>", b"x"]).xml()) == b"<a>"
