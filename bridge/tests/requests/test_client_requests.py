"""What the bridge reads from XML, and what it refuses."""
import math
import re
import subprocess
import sys
from decimal import Decimal, InvalidOperation
from pathlib import Path
from xml.etree.ElementTree import Element, SubElement
from xml.sax.saxutils import escape

import pytest
from hostile import SHAPES
from hypothesis import example, given
from hypothesis import strategies as st
from messages import request
from recorded_requests import read_request, recorded

from bsched_bridge.requests import client_requests
from bsched_bridge.requests import parts as request_parts
from bsched_bridge.requests.client_requests import Fields, Report
from bsched_bridge.requests.parts import MOST_XML, RequestFault


def test_a_first_request() -> None:
    parsed = read_request(recorded("first"))
    assert parsed.authenticator == "ann-key"
    assert parsed.hostid == 0
    assert parsed.host_cpid == "0fb84cfbc167689574d58ef96c0de1b7"
    # rounded down
    assert (parsed.p_fpops, parsed.m_nbytes, parsed.d_free) == (1_000_000_000, 25_276_080_128, 66_681_540_608)
    assert parsed.work_req_seconds == 1  # rounded up
    assert (parsed.platform_name, parsed.alt_platforms) == ("x86_64-pc-linux-gnu", ("i686-pc-linux-gnu",))
    assert parsed.other_results == ()  # the client says that it has nothing
    assert parsed.results == ()
    assert parsed.code_sign_key == ""


def test_reports_and_what_the_client_has() -> None:
    parsed = read_request(recorded("reports"))
    assert parsed.hostid == 1
    assert parsed.other_results == ("sum_5_0", "sum_6_1")
    assert parsed.results == (
        Report("sum_1_0", 0, "500500"),
        # not finished, so no success
        Report("sum_2_0", 1, "<message>\ncouldn't start app: missing file</message>"),
        Report("sum_3_0", 203, "half"),
        Report("sum_4_0", 0, "-12"),  # what the program marked as its answer
    )
    assert parsed.code_sign_key == "102400ff."


def test_no_list_and_numbers_out_of_range() -> None:
    parsed = read_request(recorded("unlisted"))
    assert parsed.other_results is None
    assert (parsed.p_fpops, parsed.m_nbytes, parsed.d_free) == (1, 0, 10**18)
    assert parsed.work_req_seconds == 0


def test_more_than_the_profile_takes() -> None:
    platforms = "".join(f"<alt_platform><name>p{number}</name></alt_platform>" for number in range(9))
    parsed = read_request(request(seconds=1e12, extra=platforms, reports=[("u1_0", "é" * 600)]).encode())
    assert parsed.work_req_seconds == 10**9
    assert parsed.alt_platforms == tuple(f"p{number}" for number in range(7))
    assert parsed.results[0].output == "é" * 512
    assert (
        read_request(request(reports=[("u1_0", "x" + "é" * 600)]).encode()).results[0].output
        == "x" + "é" * 511
    )


@pytest.mark.parametrize(
    "exit_elements, status",
    [
        ("0</exit_status><state>5", 0),
        ("0</exit_status><state>3", 1),
        ("-9</exit_status><state>3", -9),
        ("3221225477</exit_status><state>3", 2**31 - 1),
        ("7</exit_status><state>5", 7),
    ],
)
def test_exit_statuses(exit_elements: str, status: int) -> None:
    body = request(reports=[("u1_0", "")]).replace("0</exit_status><state>5", exit_elements)
    (report,) = read_request(body.encode()).results
    assert report.exit_status == status
    sent = int(exit_elements.partition("<")[0])
    if sent == 0 != status:
        assert report.output == "a failure (state 3), without a word or an exit status"
    else:
        assert report.output == ("" if status == 0 else f"exit status {status}")


TOO_LARGE = "upload failure: <file_xfer_error>\n  <error_code>-131 (file size too big)</error_code>\n"


@pytest.mark.parametrize(
    "text, message, output",
    [
        ("", TOO_LARGE, TOO_LARGE.strip()),
        (" \n\t\n", TOO_LARGE, TOO_LARGE.strip()),
        ("no numbers", TOO_LARGE, "no numbers"),
        ("<message>mine</message>", TOO_LARGE, "<message>mine</message>"),
        ("", "", "a failure (state 3), without a word or an exit status"),
        ("", "process exited with code 3 (0x3)", "process exited with code 3 (0x3)"),
    ],
)
@pytest.mark.parametrize("is_after", [False, True])
def test_a_result_whose_program_says_nothing(text: str, message: str, output: str, is_after: bool) -> None:
    """The client says why an output file is too large, after the text, and its exit status is 0. Other
    messages are before the text."""
    body = request(reports=[("u1_0", text)]).replace("0</exit_status><state>5", "0</exit_status><state>3")
    told = f"<message>\n{message}\n</message>"
    front, back = ("", f"\n{told}") if is_after else (f"{told}\n", "")
    body = body.replace("<stderr_txt>", f"{front}<stderr_txt>").replace(
        "</stderr_txt>", f"</stderr_txt>{back}"
    )
    (report,) = read_request(body.encode()).results
    assert (report.exit_status, report.output) == (1, output)


def test_a_result_that_can_have_no_name_is_passed_over() -> None:
    assert read_request(request(reports=[("u" * 255, ""), ("u1_0", "")]).encode()).results == (
        Report("u1_0", 0, ""),
    )


@pytest.mark.parametrize("name", ["first", "reports", "unlisted"])
def test_a_request_that_is_cut_anywhere_is_refused(name: str) -> None:
    body = recorded(name).rstrip()
    for end in range(len(body)):
        with pytest.raises(RequestFault):
            read_request(body[:end])


BOMB = (
    '<!DOCTYPE x [<!ENTITY a "aaaa"><!ENTITY b "&a;&a;">]>'
    "<scheduler_request><authenticator>&b;</authenticator></scheduler_request>"
)
FAULTS = {
    "nothing": "",
    "another element": "<scheduler_reply></scheduler_reply>",
    "an entity bomb": BOMB,
    "a document type": request().replace(
        "<scheduler_request>", "<!DOCTYPE scheduler_request><scheduler_request>", 1
    ),
    "a file of the server": BOMB.replace('ENTITY a "aaaa"', 'ENTITY a SYSTEM "file:///etc/passwd"'),
    "an unknown entity": request(key="&nothing;"),
    "no authenticator": request().replace("authenticator>", "other>"),
    "an authenticator that is no word": request(key="a b"),
    "a host_cpid that is no word": request(cpid=""),
    "a platform that is no word": request(platform="x" * 65),
    "a speed that is no number": request(p_fpops="fast"),
    "a speed that is not a number": request(p_fpops="nan"),
}


@pytest.mark.parametrize("fault", FAULTS)
def test_faulty_requests(fault: str) -> None:
    with pytest.raises(RequestFault):
        read_request(FAULTS[fault].encode())


def test_a_huge_request() -> None:
    with pytest.raises(RequestFault, match="request is too long"):
        read_request(b"<scheduler_request>" + b" " * MOST_XML)
    with pytest.raises(RequestFault, match="standard error of a result is too long"):
        read_request(request(reports=[("u1_0", "x" * request_parts.MOST_ERROR)]).encode())
    longest = "&#195;" * 65_536  # 64 KB beyond ASCII, as a client writes them
    assert read_request(request(reports=[("u1_0", longest)]).encode()).results[0].output == "\ufffd" * 341


@pytest.mark.parametrize("text", ["<a/>" * client_requests.MOST_ELEMENTS, "<a>" * 21])
def test_a_request_of_too_many_elements(text: str) -> None:
    with pytest.raises(RequestFault, match="too many elements"):
        read_request(b"<scheduler_request>" + text.encode())


def test_a_request_of_too_many_results() -> None:
    error = b"<stderr_out></stderr_out>"
    with pytest.raises(RequestFault, match="too many results"):
        read_request(b"<scheduler_request>" + error * (request_parts.MOST_ERRORS + 1))


@pytest.mark.parametrize("text", ["<a " + "".join(f"a{n}=''" for n in range(20_000)), "<!--" + "x" * 140_000])
def test_a_tag_of_too_many_attributes(text: str) -> None:
    with pytest.raises(RequestFault):
        read_request(b"<scheduler_request>" + text.encode())


def test_bytes_that_are_no_xml_outside_of_a_standard_error() -> None:
    parsed = read_request(request(extra="<name>A\x01HERE\ufffe</name>").encode().replace(b"HERE", b"\xff"))
    assert parsed.host_cpid == "c1"


def test_hostile_requests_take_little_memory_and_time() -> None:
    """Eight at once take as much memory as 64, since the others wait; bridge/tests/hostile.py reads more."""
    completed = subprocess.run(
        [sys.executable, Path(__file__).parent.parent / "hostile.py", "8", "2"],
        check=True,
        capture_output=True,
        text=True,
    ).stdout
    lines = re.findall(r"^(\d+) MB, ([0-9.]+) seconds: ", completed, re.MULTILINE)
    assert len(lines) == len(SHAPES)
    assert max(int(peak) for peak, _ in lines) < 300
    assert max(float(seconds) for _, seconds in lines) < 2


def test_a_deep_request() -> None:
    with pytest.raises(RequestFault):
        read_request(b"<scheduler_request>" + b"<a>" * 100_000)
    with pytest.raises(RequestFault, match="too many elements"):
        read_request(request(extra="<a>" * 20_000 + "</a>" * 20_000).encode())
    depth = client_requests.MOST_AT_ONCE // 8  # a short one does no harm
    assert read_request(request(extra="<a>" * depth + "</a>" * depth).encode()).host_cpid == "c1"


# ---- The two parsers


NAMES = st.sampled_from(["a", "b", "name", "a:b", "é", "time_stats", "app_versions"])
XML_TEXTS = st.text(st.sampled_from("x \n\té\U0001f600&<>'\"]"), max_size=6)
ELEMENTS: st.SearchStrategy[str] = st.recursive(
    st.builds(lambda name, text: f"<{name}>{escape(text)}</{name}>", NAMES, XML_TEXTS),
    lambda inner: st.builds(
        lambda name, parts, tail: f'<{name} x="1" y=\'&lt;\'>{"".join(parts)}{escape(tail)}</{name}>',
        NAMES,
        st.lists(inner, max_size=4),
        XML_TEXTS,
    ),
    max_leaves=12,
)


UNUSED = ["time_stats", "app_versions", "unused"]


def shape(element: Element) -> tuple[object, ...]:
    """Returns what is read of an element: all but its attributes and the unused elements."""
    return element.tag, element.text, [shape(one) for one in element if one.tag not in UNUSED]


@given(ELEMENTS)
@example("<a><time_stats><a/></time_stats><b>1</b><time_stats><a/></time_stats></a>")
@example("<a><time_stats><time_stats/></time_stats><b>1</b></a>")
@example("<a><time_stats><time_stats></time_stats></time_stats><b>1</b></a>")
@example("<time_stats><a/></time_stats>")
@example("<a><time_stats>1</time_stats>2</a>")
def test_both_parsers_read_the_same(text: str) -> None:
    body = f"<a>{text}</a>".encode()
    at_once = client_requests.element_at_once(body)
    try:
        expected = client_requests.element_in_pieces([body])
    except RequestFault:
        assert at_once is None  # a prefix that is not bound
    else:
        # of an unused element in another one of its name, the first end is that of the inner one
        assert at_once is None or shape(at_once) == shape(expected)
        assert at_once is not None or "time_stats" in text or "app_versions" in text


@pytest.mark.parametrize("name", ["first", "reports", "unlisted", "whole"])
def test_both_parsers_read_the_same_request(name: str, monkeypatch: pytest.MonkeyPatch) -> None:
    result = recorded("whole_result").replace(b"@NAME@", b"u1_0")
    body = recorded(name).replace(b"@CPID@", b"c1").replace(b"@RESULTS@", result)
    body = body.replace(b"@HOSTID@", b"7").replace(b"@SEQNO@", b"5")
    at_once = read_request(body)
    monkeypatch.setattr(client_requests, "MOST_AT_ONCE", 0)
    assert read_request(body) == at_once


def test_a_request_as_long_as_those_of_clients() -> None:
    body = recorded("whole").replace(b"@CPID@", b"c1").replace(b"@RESULTS@", recorded("whole_result"))
    parsed = read_request(
        body.replace(b"@HOSTID@", b"7").replace(b"@SEQNO@", b"5").replace(b"@NAME@", b"u1_0")
    )
    assert (parsed.authenticator, parsed.hostid, parsed.rpc_seqno, parsed.host_cpid) == (
        "ann-key",
        7,
        5,
        "c1",
    )
    assert (parsed.p_ncpus, parsed.p_fpops, parsed.m_nbytes) == (4, 10**9, 25_276_080_128)
    assert parsed.results == (Report("u1_0", 0, "500500"),) and parsed.other_results == ()
    assert parsed.alt_platforms == ("i686-pc-linux-gnu",) and parsed.coprocs == ()


@pytest.mark.parametrize("text", ["<!-- a comment -->", "<a><![CDATA[ <b> ]]></a>", "<?a b?>"])
def test_requests_with_comments_and_sections_are_read(text: str) -> None:
    assert read_request(request(extra=text).encode()) == read_request(request().encode())


@pytest.mark.parametrize("text", ["<!DOCTYPE a>", "<!DOCTYPE a [<!ENTITY b 'c'>]>", "<!doctype a>"])
def test_a_document_type_reaches_one_parser_only(text: str) -> None:
    body = text + "<scheduler_request/>"
    assert client_requests.element_at_once(body.encode()) is None
    with pytest.raises(RequestFault):
        read_request(body.encode())


@given(
    st.from_regex(r"-?[0-9]{0,20}(\.[0-9]{0,4})?(e[0-9]{1,2})?|[0-9]\u0663", fullmatch=True), st.booleans()
)
def test_numbers(text: str, up: bool) -> None:
    """They are read as decimals are, whether at once or not."""
    element = Element("x")
    SubElement(element, "n").text = f" {text}\n"
    try:
        number = Decimal(text)
    except InvalidOperation:
        with pytest.raises(RequestFault):
            Fields(element).whole("n", 3, 10**9, 0, up)
        return
    whole = math.ceil(number) if up else math.floor(number)
    assert Fields(element).whole("n", 3, 10**9, 0, up) == min(max(whole, 3), 10**9)


def test_a_number_of_many_digits() -> None:
    assert read_request(request(m_nbytes="1e999999", d_free="1" * 100_000).encode()).m_nbytes == 10**18


# as client 7.20.5 reports a file that was uploaded, and one that it gave up
UPLOADED = """\
<file_info>
    <name>u1_0_0</name>
    <nbytes>3893.000000</nbytes>
    <max_nbytes>1000000.000000</max_nbytes>
    <md5_cksum>53d025127ae99ab79e8502aae2d9bea6</md5_cksum>
    <upload_url>https://project.example/file_upload_handler</upload_url>
</file_info>
"""
GIVEN_UP = UPLOADED.replace("u1_0_0", "u1_0_1").replace(
    "</file_info>", "    <error_msg>permanent upload error</error_msg>\n</file_info>"
)


@pytest.mark.parametrize(
    "files, status, report",
    [
        (UPLOADED, 0, (0, "7")),
        (UPLOADED + GIVEN_UP, 0, (-187, "output file u1_0_1 was not uploaded: permanent upload error")),
        (GIVEN_UP, 3, (3, "7")),
        ("<file_info><error_msg/></file_info>", 0, (-187, "output file  was not uploaded: ")),
    ],
)
def test_a_result_whose_upload_was_given_up_is_no_success(
    files: str, status: int, report: tuple[int, str]
) -> None:
    body = (
        request(reports=[("u1_0", "7")])
        .replace("<exit_status>0</exit_status>", f"<exit_status>{status}</exit_status>")
        .replace("</stderr_out></result>", f"</stderr_out>{files}</result>")
    )
    (result,) = read_request(body.encode()).results
    assert (result.exit_status, result.output) == report


def test_many_results_are_read() -> None:
    body = request(reports=[(f"u{number}_0", "42") for number in range(1500)])
    assert len(read_request(body.encode()).results) == 1500
