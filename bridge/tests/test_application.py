"""What answers at each URL, and messages that the bridge refuses."""
import xml.etree.ElementTree as ElementTree
from typing import Any, cast

import pytest
from bridges import Bridge
from messages import FIRST, jobs, request, value

from bsched_bridge.common.code_signing import file_md5, signature_text
from bsched_bridge.requests import client_requests


# the error numbers of BOINC with which the Manager's wizard never ends, in an answer to a look-up
HANGING_ERRORS = {"-136", "-161", "-205", "-206", "-204"}


def account_answer(bridge: Bridge, query: str) -> Any:
    """Returns the answer to a message about an account. The client reads its body only if the status is
    200."""
    status, fields, body = bridge.got(f"/p/{query}")
    assert (status, fields["Content-Type"]) == ("200 OK", "text/xml; charset=utf-8")
    return ElementTree.fromstring(body)


def test_what_a_client_asks_before_it_attaches(bridge: Bridge) -> None:
    config = ElementTree.fromstring(bridge.got("/p/get_project_config.php")[2])
    assert config.findtext("name") == "Sums"
    assert config.findtext("master_url") == config.findtext("web_rpc_url_base") == "http://127.0.0.1:8081/p/"
    assert config.findtext("platforms/platform/platform_name") == "x86_64-pc-linux-gnu"
    # the Manager accepts no account key as an e-mail address, but any text as a user name
    for member in ("uses_username", "account_creation_disabled", "client_account_creation_disabled"):
        assert config.findtext(member) == "1"


def test_an_account_is_looked_up_by_its_key(bridge: Bridge) -> None:
    for member in ("authenticator", "email_addr"):
        answer = account_answer(bridge, f"lookup_account.php?{member}=ann-key&passwd_hash=00")
        assert answer.findtext("authenticator") == "ann-key"
    for query in ("?authenticator=nobody", "?authenticator=a%20b", "?email_addr=", ""):
        answer = account_answer(bridge, f"lookup_account.php{query}")
        assert (answer.tag, answer.findtext("error_num")) == ("error", "-155")
        assert answer.findtext("error_num") not in HANGING_ERRORS
    assert bridge.twin.service.machine.hosts == {}  # asking makes no host
    for _ in range(20):  # without [accounts] the peer may be a proxy, so wrong keys don't count
        account_answer(bridge, "lookup_account.php?authenticator=nobody")
    assert account_answer(bridge, "lookup_account.php?authenticator=ann-key").tag == "account_out"
    with bridge.application.account_places.places.taken(), bridge.application.account_places.places.taken():
        places = bridge.application.account_places.places
        with places.taken(), places.taken():
            answer = account_answer(bridge, "lookup_account.php?authenticator=ann-key")
    assert answer.findtext("error_num") == "-183"
    bridge.twin.close()
    assert account_answer(bridge, "lookup_account.php?authenticator=ann-key").findtext("error_num") == "-183"


def test_no_client_makes_an_account(bridge: Bridge) -> None:
    answer = account_answer(bridge, "create_account.php?email_addr=a@b.example&passwd_hash=00&user_name=Ann")
    assert (answer.tag, answer.findtext("error_num")) == ("error", "-208")
    assert bridge.twin.heard == []


def test_a_reply_has_all_that_a_client_needs(bridge: Bridge) -> None:
    bridge.call(request(seconds=61))
    reply = ElementTree.fromstring(bridge.call(request(seconds=61)))
    assert [job.findtext("name") for job in reply.findall("result")] == ["u1_0", "u2_0"]
    assert reply.findtext("app/user_friendly_name") == "Sums & more"
    program, data = reply.findall("file_info")
    assert program.findtext("url") == "http://127.0.0.1:8081/p/download/sum_1"
    assert (program.findtext("nbytes"), program.findtext("executable")) == ("10", "1")
    assert program.findtext("file_signature", "").strip().endswith("\n.")
    assert (data.findtext("name"), data.findtext("nbytes")) == ("two.txt", "2")
    assert data.findtext("md5_cksum") == "26ab0db90d72e28ad0ba1e22ee510510"
    assert data.find("file_signature") is None
    (version,) = reply.findall("app_version")
    assert (version.findtext("version_num"), version.findtext("file_ref/main_program")) == ("1", "1")
    one, two = reply.findall("workunit")
    assert (one.findtext("command_line"), two.findtext("command_line")) == ("--name u1", "--two <2>")
    assert (one.findtext("rsc_fpops_est"), one.findtext("rsc_fpops_bound")) == ("60000000000", "600000000000")
    assert two.findtext("file_ref/open_name") == "numbers"
    assert reply.findtext("code_sign_key", "").strip() == (bridge.folder / "key").read_text().strip()


def test_the_key_is_told_to_a_client_that_has_none(bridge: Bridge) -> None:
    key = (bridge.folder / "key").read_text()
    reply = bridge.call(request(extra=f"<code_sign_key>\n{key}\n</code_sign_key>\n"))
    assert b"code_sign_key" not in reply
    reply = bridge.call(request(extra="<code_sign_key>\n1024\n00\n.\n</code_sign_key>\n"))
    assert b"<code_sign_key>" not in reply
    assert "changed its code signing key" in value(reply, "message")


def test_a_job_whose_file_is_gone_comes_again(bridge: Bridge) -> None:
    (bridge.folder / "files" / "two.txt").unlink()
    reply = bridge.call(request(seconds=61))
    assert jobs(reply) == ["u1_0"]
    assert b"lacks a file for the job u2_0" in reply
    (bridge.folder / "files" / "two.txt").write_text("2\n")
    assert jobs(bridge.call(request(hostid=FIRST, listed=["u1_0"], seconds=0))) == ["u2_0"]


def test_what_is_no_message(bridge: Bridge, monkeypatch: pytest.MonkeyPatch) -> None:
    assert bridge.got("/")[0] == "404 Not Found"
    assert bridge.got("/p/nothing")[0] == "404 Not Found"
    assert bridge.got("/p/cgi")[:2] == (
        "405 Method Not Allowed",
        {
            "Content-Type": "text/plain; charset=utf-8",
            "Content-Length": "19",
            "Allow": "POST",
        },
    )
    assert bridge.got("/p/", "POST")[0] == "405 Method Not Allowed"
    assert bridge.got("/p/cgi", "POST", CONTENT_LENGTH="")[0] == "411 Length Required"
    assert bridge.got("/p/cgi", "POST", CONTENT_LENGTH="-1")[0] == "411 Length Required"
    assert bridge.got("/p/cgi", "POST", b"short", CONTENT_LENGTH="9")[0] == "400 Bad Request"
    assert (
        bridge.got("/p/cgi", "POST", CONTENT_LENGTH=str(client_requests.MOST_BYTES + 1))[0]
        == "413 Content Too Large"
    )
    assert bridge.got("/p/", "HEAD")[2] == b""


def test_a_fault_of_the_bridge_is_no_answer_to_a_client(
    bridge: Bridge, monkeypatch: pytest.MonkeyPatch
) -> None:
    monkeypatch.setattr(bridge.application.exchange, "answer", lambda _request: 1 // 0)
    assert bridge.got("/p/cgi", "POST", request().encode())[0] == "500 Internal Server Error"


@pytest.mark.parametrize("length", ["", "-1", "x", "9" * 19, "١", "1 ", "0x1", "+1"])
def test_a_body_whose_length_is_not_known_is_not_read(open_bridge: Bridge, length: str) -> None:
    class Unread:
        """A body that nobody reads."""

    for path in ("cgi", "account"):
        fields: dict[str, Any] = {
            "CONTENT_LENGTH": length,
            "wsgi.input": Unread(),
            "wsgi.input_terminated": True,
        }
        kind = {"CONTENT_TYPE": "application/x-www-form-urlencoded", "HTTP_TRANSFER_ENCODING": "chunked"}
        assert open_bridge.got(f"/p/{path}", "POST", **fields, **kind)[0] == "411 Length Required"
        fields["CONTENT_LENGTH"] = "99999999999"
        assert open_bridge.got(f"/p/{path}", "POST", **fields, **kind)[0] == "413 Content Too Large"


def test_no_form_has_files(open_bridge: Bridge) -> None:
    body = b'--b\r\nContent-Disposition: form-data; name="key"; filename="x"\r\n\r\nx\r\n--b--\r\n'
    for kind in ("multipart/form-data; boundary=b", "application/x-url-encoded", "", "text/plain"):
        assert (
            open_bridge.got("/p/account", "POST", body, CONTENT_TYPE=kind)[0] == "415 Unsupported Media Type"
        )


def further_file(bridge: Bridge, key: Any, members: str) -> None:
    """Adds a further file to the version, and starts the bridge again."""
    (bridge.folder / "files" / "tool_1").write_text("#!/bin/sh\n")
    (bridge.folder / "tool_1.signature").write_text(
        signature_text(file_md5(bridge.folder / "files" / "tool_1"), key)
    )
    path = bridge.folder / "catalogue.toml"
    path.write_text(
        path.read_text().replace(
            "main_program = true }]",
            f'main_program = true }}, {{ name = "tool_1", signature = "tool_1.signature"{members} }}]',
        )
    )
    bridge.restart()


@pytest.mark.parametrize(
    "members, executable",
    [
        ("", None),
        (", executable = false", None),
        (', executable = true, open_name = "tool"', "1"),
    ],
)
def test_a_further_file_of_a_version_can_be_a_program(
    bridge: Bridge, key: Any, members: str, executable: str | None
) -> None:
    further_file(bridge, key, members)
    reply = ElementTree.fromstring(bridge.call(request()))
    executables = {file.findtext("name"): file.findtext("executable") for file in reply.findall("file_info")}
    assert executables["sum_1"] == "1"
    assert executables["tool_1"] == executable


def test_an_application_whose_results_are_reported_at_once(bridge: Bridge) -> None:
    reply = bridge.call(request())
    assert (jobs(reply), value(reply, "report_immediately")) == (["u1_0"], None)
    path = bridge.folder / "catalogue.toml"
    path.write_text(path.read_text().replace("title = ", "report_immediately = true\ntitle = "))
    bridge.restart()
    results = ElementTree.fromstring(bridge.call(request(hostid=FIRST, listed=["u1_0"]))).findall("result")
    assert [(one.findtext("name"), one.findtext("report_immediately")) for one in results] == [("u2_0", "1")]


def test_files_that_are_read_slowly_leave_threads_for_pages_and_calls(bridge: Bridge) -> None:
    """gunicorn has a thread for each file until its client has read it."""
    changed = bridge.got("/p/download/two.txt")[1]["Last-Modified"]
    started: list[str] = []

    def asked(name: str = "two.txt", **more: str) -> Any:
        environ = {
            "REQUEST_METHOD": "GET",
            "PATH_INFO": f"/p/download/{name}",
            "SERVER_SOFTWARE": "gunicorn/20.1.0",
            **more,
        }

        def start(status: str, _fields: object) -> None:
            started.append(status[:3])

        return bridge.application(environ, cast(Any, start))

    for _ in range(10):  # none of these keeps a place
        asked("nothing")
        asked(HTTP_RANGE="bytes=9-")
        asked(REQUEST_METHOD="HEAD")
        asked(HTTP_IF_MODIFIED_SINCE=changed)
    assert set(started) == {"404", "416", "200", "304"}
    started.clear()
    slow = [asked() for _ in range(5)]
    assert started == ["200"] * 4 + ["503"]
    assert jobs(bridge.call(request())) == ["u1_0"]
    slow[0].close()
    assert b"".join(asked()) == b"2\n" and started[-1] == "200"
