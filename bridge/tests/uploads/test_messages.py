"""The messages by which a client uploads a file: what it gets, and what is stored."""
import io
import threading
import xml.etree.ElementTree as ElementTree

import hypothesis
import pytest
from bridges import Bridge
from hypothesis import strategies as st
from joining import wait_until
from uploading import (
    AGAIN,
    ASKS_SIZE,
    DATA,
    DONE,
    NEVER,
    odd_messages,
    on_disk,
    sent,
    sha256_of,
    upload,
    url_of,
)
from uploads_given import given

from bsched_bridge.application import UPLOADS_WAITING
from bsched_bridge.common.limits import Places
from bsched_bridge.uploads import messages as upload_messages


# ---- Good messages


@pytest.mark.parametrize(
    "data",
    [
        b"",
        b"x",
        DATA,
        b"<data>\n</data_server_request>",
        ASKS_SIZE.encode(),
        DATA * 2,
        bytes(20_000)[:20_000],
    ],
)
def test_a_file_is_received(file_bridge: Bridge, data: bytes) -> None:
    data = data[:20_000]
    tokens = given(file_bridge)
    assert sent(file_bridge, upload("u1_0_0", data, tokens["u1_0_0"])) == DONE
    name = f"pending/u1_0_0.{sha256_of(data)}"
    assert on_disk(file_bridge.folder) == {name: data}
    file_bridge.restart()
    assert on_disk(file_bridge.folder) == {name: data}
    row = file_bridge.store.upload("u1_0_0")
    assert (row.nbytes, row.sha256) == (len(data), sha256_of(data))


def test_a_client_that_asks_for_the_size_sends_all(file_bridge: Bridge) -> None:
    tokens = given(file_bridge)
    for _ in range(2):
        question = ASKS_SIZE.format(name="u1_0_0").encode()
        body = file_bridge.got(url_of(file_bridge, "u1_0_0"), "POST", question)[2]
        root = ElementTree.fromstring(body)
        assert (root.tag, root.findtext("status"), root.findtext("file_size")) == (
            "data_server_reply",
            "0",
            "0",
        )
        assert sent(file_bridge, upload("u1_0_0", DATA, tokens["u1_0_0"])) == DONE


def test_other_bytes_of_a_job_that_was_lost_replace_the_older(file_bridge: Bridge) -> None:
    tokens = given(file_bridge)
    for data in (b"one", b"two", b"two", b"one"):
        assert sent(file_bridge, upload("u1_0_0", data, tokens["u1_0_0"])) == DONE
        assert on_disk(file_bridge.folder) == {f"pending/u1_0_0.{sha256_of(data)}": data}
    assert file_bridge.store.tables.used() == 3


def test_a_body_that_comes_in_small_pieces(file_bridge: Bridge) -> None:
    class Pieces(io.BytesIO):
        """A stream that gives a few bytes at a time after the head, as a slow connection does."""

        def read(self, size: int | None = -1, /) -> bytes:
            return super().read(min(size or 0, 1000) if self.tell() else size)

    tokens = given(file_bridge)
    message = upload("u1_0_0", DATA, tokens["u1_0_0"])
    assert sent(file_bridge, message, **{"wsgi.input": Pieces(message)}) == DONE


# ---- Odd and forged messages


def test_odd_and_forged_messages_store_nothing(file_bridge: Bridge) -> None:
    tokens = given(file_bridge)
    seen = 0
    for what, message, status in odd_messages(("u1_0_0", "u1_0_1"), tokens["u1_0_0"], tokens["u1_0_1"]):
        assert sent(file_bridge, message, "u1_0_0") == status, what
        assert on_disk(file_bridge.folder) == {}, what
        assert file_bridge.store.upload("u1_0_0") is None and file_bridge.store.tables.used() == 0
        seen += 1
    assert seen >= 26
    assert sent(file_bridge, upload("u1_0_0", DATA, tokens["u1_0_0"])) == DONE  # the good one still comes


FIXTURE = hypothesis.HealthCheck.function_scoped_fixture
PIECES = [
    b"<name>",
    b"</name>",
    b"u1_0_0",
    b"<nbytes>",
    b"</nbytes>",
    b"5",
    b"<md5_cksum>",
    b"</md5_cksum>",
    b"0" * 32,
    b"<offset>0</offset>",
    b"<data>\n",
    b"<max_nbytes>20000</max_nbytes>",
    b"<xml_signature>",
    b"</xml_signature>",
    b"\xff",
    b"\x00",
    b"\n",
    b" " * 4096,
    b"<get_file_size",
    b"a",
]


@hypothesis.settings(
    max_examples=200,
    suppress_health_check=[*hypothesis.settings().suppress_health_check, FIXTURE],
    deadline=None,
    database=None,
)
@hypothesis.given(st.lists(st.sampled_from(PIECES), max_size=20).map(b"".join))
def test_any_message_gets_an_answer_and_stores_nothing(file_bridge: Bridge, message: bytes) -> None:
    assert sent(file_bridge, message, "u1_0_0") in (AGAIN, NEVER)
    assert on_disk(file_bridge.folder) == {}


@pytest.mark.parametrize("end", [0, 10, 600, 640, 700, 8191, 8192, 8193, 9000, -1])
def test_a_message_that_breaks_off_is_sent_again(file_bridge: Bridge, end: int) -> None:
    tokens = given(file_bridge)
    message = upload("u1_0_0", DATA, tokens["u1_0_0"])
    assert sent(file_bridge, message[:end], "u1_0_0", CONTENT_LENGTH=str(len(message))) == AGAIN
    assert on_disk(file_bridge.folder) == {}


def test_a_connection_that_fails_is_no_final_answer(file_bridge: Bridge) -> None:
    class Failing(io.BytesIO):
        """A stream that fails after the head."""

        def read(self, size: int | None = -1, /) -> bytes:
            if self.tell():
                raise ConnectionResetError
            return super().read(size)

    tokens = given(file_bridge)
    message = upload("u1_0_0", DATA, tokens["u1_0_0"])
    assert sent(file_bridge, message, **{"wsgi.input": Failing(message)}) == AGAIN
    assert on_disk(file_bridge.folder) == {}


def test_what_is_no_upload(file_bridge: Bridge) -> None:
    for path in ("/p/file_upload_handler", url_of(file_bridge, "u1_0_0")):
        assert file_bridge.got(path)[0] == "405 Method Not Allowed"
        assert file_bridge.got(path, "POST", CONTENT_LENGTH="")[0] == "411 Length Required"
    assert file_bridge.got(f"{path}/more", "POST")[0] == "404 Not Found"


def test_without_output_files_nothing_is_uploaded(bridge: Bridge) -> None:
    assert (
        bridge.got("/p/file_upload_handler", "POST", upload("u1_0_0", DATA, "0" * 64))[0] == "404 Not Found"
    )


# ---- Several at once, and too little room


def test_thirty_uploads_under_one_name_leave_one_file(
    file_bridge: Bridge, monkeypatch: pytest.MonkeyPatch
) -> None:
    monkeypatch.setattr("bsched_bridge.uploads.tables.SECONDS", 600.0)  # a slow disk may take long
    tokens = given(file_bridge)
    answers: list[int] = []
    store = file_bridge.application.uploads
    assert store is not None
    store.places, store.waiting = Places(30), Places(30)

    def send(number: int) -> None:
        data = b"content %d" % (number % 3)
        answers.append(sent(file_bridge, upload("u1_0_0", data, tokens["u1_0_0"])))

    threads = [threading.Thread(target=send, args=(number,)) for number in range(30)]
    for thread in threads:
        thread.start()
    for thread in threads:
        thread.join()
    assert answers == [DONE] * 30
    row = file_bridge.store.upload("u1_0_0")
    ((name, data),) = on_disk(file_bridge.folder).items()
    assert name == f"pending/u1_0_0.{row.sha256}" and sha256_of(data) == row.sha256


def test_an_upload_waits_for_a_place(file_bridge: Bridge, monkeypatch: pytest.MonkeyPatch) -> None:
    monkeypatch.setattr(upload_messages, "PLACE_SECONDS", 0.01)
    tokens = given(file_bridge)
    assert file_bridge.application.uploads is not None
    places = file_bridge.application.uploads.places
    message = upload("u1_0_0", DATA, tokens["u1_0_0"])
    with places.taken(), places.taken(), places.taken(), places.taken():
        assert sent(file_bridge, message) == AGAIN
        monkeypatch.setattr(upload_messages, "PLACE_SECONDS", 30.0)
        answers: list[int] = []
        waiting = threading.Thread(target=lambda: answers.append(sent(file_bridge, message)))
        waiting.start()
    waiting.join()
    assert answers == [DONE]


class Counted(io.RawIOBase):
    """A body that begins with some bytes and then has zeros without end, and counts what is read of it."""

    def __init__(self, begin: bytes) -> None:
        self.begin, self.count = io.BytesIO(begin), 0

    def read(self, size: int = -1, /) -> bytes:
        """Reads some bytes."""
        block = self.begin.read(size) or bytes(size)
        self.count += len(block)
        return block


@pytest.mark.parametrize(
    "what, status", [("forged", NEVER), ("of another URL", NEVER), ("without a place", AGAIN), ("odd", AGAIN)]
)
def test_a_body_is_read_before_its_upload_is_refused(
    file_bridge: Bridge, monkeypatch: pytest.MonkeyPatch, what: str, status: int
) -> None:
    """Else nginx, which still sends, makes a broken bridge of it: the client does not read that it shall give
    up, and sends the file for 90 days.
    """
    monkeypatch.setattr(upload_messages, "PLACE_SECONDS", 0.01)
    tokens, handler = given(file_bridge), file_bridge.application.uploads
    assert handler is not None
    if what == "without a place":
        handler.places = Places(1)
        handler.places.take(0)
    token = "0" * 64 if what == "forged" else tokens["u1_0_0"]
    message = upload("u1_0_0", bytes(20_000), token, offset=int(what == "odd"))
    body, name = Counted(message), "u1_0_1" if what == "of another URL" else "u1_0_0"
    assert sent(file_bridge, message, name, **{"wsgi.input": body}) == status
    assert body.count == len(message)


def test_no_more_of_a_body_is_read_than_an_upload_may_have(file_bridge: Bridge) -> None:
    tokens = given(file_bridge)
    path = file_bridge.folder / "bridge.toml"
    path.write_text(path.read_text() + "most_result_bytes = 21_000\n")
    file_bridge.restart()
    message = upload("u1_0_0", bytes(20_000), tokens["u1_0_0"])
    body = Counted(message)
    assert sent(file_bridge, message, CONTENT_LENGTH=str(10**15), **{"wsgi.input": body}) == AGAIN
    assert body.count <= 2 * (8192 + 21_000)


def test_uploads_that_wait_leave_threads_for_pages(
    file_bridge: Bridge, monkeypatch: pytest.MonkeyPatch
) -> None:
    """As many threads as the server has without the two for pages are taken: by calls, by uploads, and by
    uploads that wait. One more upload is asked at once to come again.
    """
    monkeypatch.setattr(upload_messages, "PLACE_SECONDS", 60.0)
    application, tokens = file_bridge.application, given(file_bridge)
    assert application.uploads is not None
    handler, answers = application.uploads, list[int]()
    threads = application.settings.threads + UPLOADS_WAITING
    message = upload("u1_0_0", DATA, tokens["u1_0_0"])
    for _ in range(4):
        handler.places.take(0)
        handler.waiting.take(0)
    waiting = [
        threading.Thread(target=lambda: answers.append(sent(file_bridge, message)))
        for _ in range(UPLOADS_WAITING)
    ]
    for thread in waiting:
        thread.start()
    wait_until(lambda: not handler.waiting._places._value)
    assert sent(file_bridge, message) == AGAIN
    for _ in range(2):
        application.places.take(0)  # calls
    assert 4 + len(waiting) + 2 == threads - 2
    for _ in range(4):
        handler.places.give_back()
    for thread in waiting:
        thread.join()
    assert set(answers) <= {DONE, AGAIN}
