"""Who may upload a file."""
from collections.abc import Callable

import pytest
from bridges import Bridge
from handing_out import SIZE, bar, hand_out, send
from messages import FIRST, names, request
from sweeping import ran
from uploading import DONE, NEVER, on_disk, report, upload, url_of
from uploads_given import given

from bsched_bridge.uploads.handed_out import HandedOut


# ---- The reply


def test_a_job_that_is_sent_again_has_the_same_tokens(file_bridge: Bridge) -> None:
    tokens = given(file_bridge)
    file_bridge.restart()
    assert given(file_bridge, hostid=FIRST, seconds=0) == tokens
    assert (file_bridge.folder / "uploads" / "secret").stat().st_mode & 0o777 == 0o600


# ---- A token ends with its job


def report_success(bridge: Bridge) -> None:
    """Has the result of a good job reported."""
    ran(bridge, "ann", b"right\n")


def report_error(bridge: Bridge) -> None:
    """Has a job given out, and an error reported."""
    bridge.call(request(key="ann-key", cpid="ann"))
    body = report("u1_0", [], status=3, state=3, key="ann-key", cpid="ann")
    assert names(bridge.call(body), "result_ack") == ["u1_0"]


def report_without_files(bridge: Bridge) -> None:
    """Has a job given out, and a success reported whose files did not come."""
    bridge.call(request(key="ann-key", cpid="ann"))
    assert names(bridge.call(report("u1_0", [], key="ann-key", cpid="ann")), "result_ack") == ["u1_0"]


def bar_by_settings(bridge: Bridge) -> None:
    """Has a job given out, and its account barred by the file of settings."""
    bridge.call(request(key="ann-key", cpid="ann"))
    path = bridge.folder / "bridge.toml"
    path.write_text(path.read_text().replace("\n[uploads]", 'barred = ["ann-key"]\n\n[uploads]'))
    bridge.restart()


def delete(bridge: Bridge) -> None:
    """Has a job given out, and its account deleted."""
    bridge.call(request(key="ann-key", cpid="ann"))
    bridge.application.exchange.barring.delete("ann-key", 1)


@pytest.mark.parametrize(
    "end", [report_success, report_error, report_without_files, bar, bar_by_settings, delete]
)
def test_a_token_ends_with_its_job(file_bridge: Bridge, end: Callable[[Bridge], None]) -> None:
    end(file_bridge)
    before = on_disk(file_bridge.folder)
    assert send(file_bridge, "u1_0_0") == NEVER
    file_bridge.restart()
    assert send(file_bridge, "u1_0_0") == NEVER
    assert on_disk(file_bridge.folder) == before


def test_a_job_that_goes_out_once_more_has_its_token_again(file_bridge: Bridge) -> None:
    report_error(file_bridge)
    jobs = HandedOut(file_bridge.store.tables)
    job = jobs.job("u1_0")
    assert job is not None and job.is_ended
    jobs.add([job])
    assert send(file_bridge, "u1_0_0") == DONE


# ---- The token in the URL


def checked(bridge: Bridge, url: str) -> tuple[str, str]:
    """Asks about the URL of an upload, as the web server does. Returns the status and the account."""
    status, fields, body = bridge.got("/p/upload_check", HTTP_X_UPLOAD_URL=url)
    assert (body == b"") == (status == "200 OK")
    return status, fields.get("X-Upload-Account", "")


def test_the_web_server_asks_about_a_url(file_bridge: Bridge) -> None:
    (first, second), (other,) = hand_out(file_bridge, "ann", 2), hand_out(file_bridge, "bob", 1)
    answers = [checked(file_bridge, url_of(file_bridge, name)) for name in (first, second, other)]
    assert [status for status, _ in answers] == ["200 OK"] * 3
    accounts = [account for _, account in answers]
    assert accounts[0] == accounts[1] != accounts[2] and all(len(account) == 16 for account in accounts)
    assert not any("ann" in account for account in accounts)


# What a stranger, or a member with the URL of another file, may ask for
FORGED_URLS: dict[str, Callable[[str], str]] = {
    "a digit is guessed": lambda url: url[:-1] + ("0" if url[-1] != "0" else "1"),
    "in capitals": lambda url: url.upper(),
    "no token": lambda url: url[:-32],
    "the name alone": lambda url: url[:-33],
    "the token for another result": lambda url: url.replace("w", "x"),
    "the token for another file of the result": lambda url: url.replace("_0/", "_1/"),
    "a further slash": lambda url: f"{url}/",
    "a query": lambda url: f"{url}?x=1",
    "a line end": lambda url: f"{url}\n",
    "a token beyond ASCII": lambda url: url.rpartition("/")[0] + "/\u00e9" * 16,
    "no name": lambda url: "/p/file_upload_handler/",
    "an empty name": lambda url: "/p/file_upload_handler//",
    "nothing": lambda url: "",
    "the URL of an older bridge, whose jobs are all in": lambda url: "/p/file_upload_handler",
}


@pytest.mark.parametrize("what", FORGED_URLS)
def test_a_url_that_no_reply_has_is_refused_before_its_body_is_read(file_bridge: Bridge, what: str) -> None:
    (name,) = hand_out(file_bridge, "ann", 1)
    url = FORGED_URLS[what](url_of(file_bridge, name))
    assert checked(file_bridge, url.encode().decode("latin-1"))[0] == "403 Forbidden"


def test_without_a_web_server_the_bridge_looks_at_the_url_by_itself(file_bridge: Bridge) -> None:
    (name, other) = hand_out(file_bridge, "ann", 2)
    tokens = file_bridge.application.writer.tokens
    assert tokens is not None
    message = upload(name, b"x", tokens.token(name, SIZE))
    wrong = f"/p/file_upload_handler/{name}/{'0' * 32}"
    for path in (wrong, url_of(file_bridge, other), "/p/file_upload_handler"):
        body = file_bridge.got(path, "POST", message)[2]
        assert b"<status>-1</status>" in body, path
    assert on_disk(file_bridge.folder) == {}
    assert b"<status>0</status>" in file_bridge.got(url_of(file_bridge, name), "POST", message)[2]


@pytest.mark.parametrize("end", [report_success, report_error, bar, delete])
def test_the_web_server_is_told_that_a_job_ended(file_bridge: Bridge, end: Callable[[Bridge], None]) -> None:
    end(file_bridge)
    assert checked(file_bridge, url_of(file_bridge, "u1_0_0"))[0] == "403 Forbidden"


def test_a_url_of_an_older_bridge_is_good_until_the_last_of_its_jobs_ends(
    file_bridge: Bridge, monkeypatch: pytest.MonkeyPatch
) -> None:
    monkeypatch.setattr("bsched_bridge.uploads.owners.LOOK_SECONDS", 0.0)
    first, second = hand_out(file_bridge, "ann", 2)
    tables, plain = file_bridge.store.tables, "/p/file_upload_handler"
    with tables.transaction() as connection:
        connection.execute("UPDATE job SET has_url = 0")
    tokens = file_bridge.application.writer.tokens
    assert tokens is not None
    message = upload(first, b"x", tokens.token(first, SIZE))
    for name in (first, second):
        file_bridge.restart()
        assert checked(file_bridge, plain) == ("200 OK", "")
        assert b"<status>0</status>" in file_bridge.got(plain, "POST", message)[2]
        HandedOut(file_bridge.store.tables).end([name.rpartition("_")[0]], 1)
        message = upload(second, b"x", tokens.token(second, SIZE))
    assert checked(file_bridge, plain)[0] == "403 Forbidden"
    assert b"<status>-1</status>" in file_bridge.got(plain, "POST", message)[2]
