"""Replies have the bytes that ElementTree writes, whatever is in them."""
from pathlib import Path
from typing import cast

import pytest
from bridges import Bridge
from hypothesis import given, strategies as st
from messages import FIRST, jobs, request
from plain_replies import PlainReplies
from twin import Twin

from bsched_bridge.catalogue.contents import App, Catalogue, DownloadFile, FileFolder, MissingFile, Version
from bsched_bridge.catalogue.contents import VersionFile, Work
from bsched_bridge.exchange.answers import PutOff
from bsched_bridge.exchange.client_replies import ReplyWriter
from bsched_bridge.people.recent_credit import Recent
from bsched_bridge.requests.client_requests import ClientRequest, read_request
from bsched_bridge.requests.plan_classes import PlanClass
from bsched_bridge.requests.preferences import Preferences
from bsched_bridge.scheduler.messages import Job, Reply
from bsched_bridge.uploads.tokens import UploadTokens
from bsched_files.catalogue import Bounds, InputFile, OutputFile

written = Preferences.written
# texts that must be escaped, that XML does not allow, and any others
TEXTS = st.text(
    st.one_of(st.sampled_from("&<>\"'\r\n\t \0\x1f\x7f\ufffe\uffffé"), st.characters()), max_size=12
)
NUMBERS = st.integers(0, 2**63)


class Folder(FileFolder):
    """A folder that has each file but one."""

    def __init__(self) -> None:
        super().__init__(Path("/nowhere"))

    def stored(self, name: str) -> DownloadFile:
        """Returns a file."""
        if name == "missing":
            raise MissingFile(name)
        return DownloadFile(name, len(name), "0123456789abcdef" * 2)


def version(app: str, platform: str, open_name: str | None) -> Version:
    """Returns a version of two files."""
    files = tuple(
        VersionFile(
            DownloadFile(f"{app}_{name}", 5, "ff" * 16), "00\nff\n.\n", is_main, is_executable, opened
        )
        for name, is_main, is_executable, opened in (
            ("main", True, True, None),
            ("helper", False, True, open_name),
            ("data", False, False, "data"),
        )
    )
    return Version(app, platform, 3, files)


def catalogue() -> Catalogue:
    """Returns a catalogue with an application of each kind."""
    inputs = (InputFile("{workunit}.txt", "numbers"), InputFile("two.txt", "two.txt"))
    outputs = (OutputFile("out", 20_000, False, True), OutputFile("log", 1000, True, False))
    apps = [
        App("plain", "Sums & more", Bounds(10**8, 10**9, 10), False, Work("", ())),
        App("files", "<Files>", Bounds(5, 6, 7), True, Work("--name {workunit} & <x>", inputs), outputs),
        App("lacks", "Lacks", Bounds(5, 6, 7), False, Work("", (InputFile("missing", "x"),))),
    ]
    classes = [
        PlanClass("mt", 2, 16, None, 1.0, None, None, "--threads {ncpus}"),
        PlanClass("gpu", 1, 1, "NVIDIA", 0.5, 0.25, 20.0, ""),
    ]
    platforms = ("linux", "linux.mt", "linux.gpu")
    versions = {
        (app.name, platform, 3): version(app.name, platform, "a & b")
        for app in apps
        for platform in platforms
    }
    works = {"own": Work("--own", (InputFile("own.txt", "own"),))}
    named = {one.name: one for one in classes}
    return Catalogue("1024\n00ff\n.\n", Folder(), {app.name: app for app in apps}, versions, works, named)


CATALOGUE = catalogue()
JOBS = st.builds(
    Job,
    name=st.one_of(TEXTS, st.just("w_0"), st.just("a..b_1")),
    wu_name=st.sampled_from(["own", "w", "a..b"]),
    app_name=st.sampled_from(["plain", "files", "lacks", "unknown"]),
    platform=st.sampled_from(["linux", "linux.mt", "linux.gpu", "other"]),
    version_num=st.just(3),
    estimate=NUMBERS,
    report_deadline=NUMBERS,
    resent=st.booleans(),
)
REPLIES = st.builds(
    Reply,
    hostid=NUMBERS,
    user_name=TEXTS,
    user_total_credit=NUMBERS,
    host_total_credit=NUMBERS,
    request_delay=NUMBERS,
    end_word=st.sampled_from(["enough", "daily_quota", "news"]),
    result_ack=st.lists(TEXTS, max_size=3),
    result_abort=st.lists(TEXTS, max_size=3),
    results=st.lists(JOBS, max_size=5),
    rpc_seqno=NUMBERS,
    team_name=st.none() | TEXTS,
    preferences=st.none() | st.builds(Preferences, NUMBERS, NUMBERS, st.booleans(), NUMBERS).map(written),
)
REQUESTS = [
    read_request([text.encode()])
    for text in (
        request(),
        request(
            seconds=0, extra="<code_sign_key>1024 00ff .</code_sign_key><msg_from_host>x</msg_from_host>"
        ),
        request(extra="<code_sign_key>another</code_sign_key><p_ncpus>4</p_ncpus>"),
        request(extra="<global_preferences><mod_time>1e9</mod_time></global_preferences>"),
        request(extra="<global_preferences><mod_time>x</mod_time></global_preferences>"),
    )
]
TOKENS = UploadTokens(b"secret")


def writers(
    has_accounts: bool, has_tokens: bool, name: str = "Sums & <more>"
) -> tuple[ReplyWriter, PlainReplies]:
    """Returns the writer of a project's replies, and the plain one."""
    words = CATALOGUE, name, "http://127.0.0.1:8081/p/", TOKENS if has_tokens else None, has_accounts
    return ReplyWriter(*words), PlainReplies(*words)


@given(
    st.sampled_from(REQUESTS),
    REPLIES,
    st.none() | NUMBERS,
    st.none() | TEXTS,
    st.none() | st.builds(Recent, st.floats(0, 1e9), st.floats(0, 1e9)),
    st.booleans(),
    st.booleans(),
)
def test_replies(
    asked: ClientRequest,
    reply: Reply,
    hostid: int | None,
    notice: str | None,
    recent: Recent | None,
    has_accounts: bool,
    has_tokens: bool,
) -> None:
    writer, plain = writers(has_accounts, has_tokens)
    assert writer.reply(asked, reply, hostid, notice, recent) == plain.reply(
        asked, reply, hostid, notice, recent
    )


@given(TEXTS, TEXTS, st.integers(0, 10**6), st.booleans())
def test_replies_that_put_off(name: str, message: str, delay: int, is_down: bool) -> None:
    writer, plain = writers(False, False, name)
    put = PutOff(message, delay, "notice" if is_down else "low", is_down)
    assert writer.put_off(put) == plain.put_off(put)


def test_another_catalogue() -> None:
    """The key of the catalogue at the time of a reply is compared with that of the client."""
    writer, _ = writers(False, False)
    assert writer.with_catalogue(CATALOGUE) is writer
    changed = catalogue()
    object.__setattr__(changed, "code_sign_key", "another")
    other = writer.with_catalogue(changed)
    reply = Reply(1, "Ann", 0, 0, 60, "enough", [], [], [], 1)
    assert b"has changed its code signing key" in writer.reply(REQUESTS[2], reply)
    assert b"has changed its code signing key" not in other.reply(REQUESTS[2], reply)
    assert other.catalogue is changed and writer.catalogue is CATALOGUE


@pytest.mark.parametrize("name", ["bridge", "file_bridge"])
def test_the_replies_of_a_project(name: str, twin: Twin, request: pytest.FixtureRequest) -> None:
    """The same for calls of a client, as a bridge answers them."""
    bridge = cast(Bridge, request.getfixturevalue(name))
    application = bridge.application
    writer = application.writer
    plain = PlainReplies(
        application.catalogue, application.settings.name, application.settings.url, writer.tokens
    )
    seen: list[tuple[bytes, bytes]] = []
    reply = writer.reply

    def watched(*words: object) -> bytes:
        text = reply(*words)  # type: ignore[arg-type]
        seen.append((text, plain.reply(*words)))  # type: ignore[arg-type]
        return text

    object.__setattr__(application.requests.writer, "reply", watched)
    given_out = jobs(bridge.call(asked_for(61)))
    assert given_out
    bridge.call(asked_for(61, hostid=FIRST, listed=given_out[1:], reports=[(given_out[0], "42")]))
    assert len(seen) == 2
    for text, expected in seen:
        assert text == expected


def asked_for(seconds: int, **more: object) -> str:
    """Returns a request of a client."""
    return request(seconds=seconds, **more)  # type: ignore[arg-type]
