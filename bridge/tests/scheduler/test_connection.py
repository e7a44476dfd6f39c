"""A message over a connection of its own, and answers that come in pieces, or not as a whole."""
import socket
import threading
import time
from collections.abc import Iterator
from contextlib import contextmanager

import pytest

from bsched_bridge.scheduler.connection import MOST_HEAD, FaultyAnswer, exchanged, message_of
from bsched_files.project_settings import Address

GOOD = b"HTTP/1.1 200 OK\r\ncontent-type: application/json\r\nContent-Length: 7\r\nconnection: close\r\n\r\n"
MOST = 100


@contextmanager
def served(*pieces: bytes, pause: float = 0) -> Iterator[tuple[Address, list[bytes]]]:
    """Serves one connection: reads a message up to the end of its body, and sends the pieces of an answer."""
    with socket.create_server(("127.0.0.1", 0)) as listener:
        heard: list[bytes] = []

        def serve() -> None:
            connection, _ = listener.accept()
            with connection:
                connection.settimeout(60)
                heard.append(connection.recv(65536))
                try:
                    for piece in pieces:
                        connection.sendall(piece)
                        time.sleep(pause)
                except OSError:
                    pass  # the other side does not read the rest

        thread = threading.Thread(target=serve)
        thread.start()
        try:
            yield Address("127.0.0.1", listener.getsockname()[1]), heard
        finally:
            thread.join()


def answer(*pieces: bytes, most: int = MOST) -> tuple[int, bytes]:
    """Returns what is read of an answer in pieces."""
    with served(*pieces) as (address, _):
        return exchanged(address, b"GET / HTTP/1.1\r\n\r\n", 60, most)


def test_a_message() -> None:
    with served(GOOD, b"answer!") as (address, heard):
        message = message_of(address, "POST", "/scheduler", b"{}", {"x-operator-key": "k"})
        assert exchanged(address, message, 60, MOST) == (200, b"answer!")
    port = str(address.port).encode()
    assert heard == [
        b"POST /scheduler HTTP/1.1\r\nhost: 127.0.0.1:" + port + b"\r\nx-operator-key: k\r\n"
        b"content-length: 2\r\n\r\n{}"
    ]
    assert b"content-length" not in message_of(address, "GET", "/hosts/1", None, {})


@pytest.mark.parametrize("size", [1, 3, 40, 1000])
def test_an_answer_in_pieces_of_any_size(size: int) -> None:
    whole = GOOD + b"answer!"
    pieces = [whole[start : start + size] for start in range(0, len(whole), size)]
    assert answer(*pieces) == (200, b"answer!")


@pytest.mark.parametrize("sizes", [(99, 2), (1, 60, 40), (60, 1, 40), (100, 1)])
def test_a_body_in_uneven_pieces(sizes: tuple[int, ...]) -> None:
    head = b"HTTP/1.1 200 OK\r\ncontent-length: 101\r\n\r\n"
    with served(head, *(b"x" * size for size in sizes), pause=0.05) as (address, _):
        assert exchanged(address, b"GET / HTTP/1.1\r\n\r\n", 60, MOST) == (200, b"x" * 101)


def test_bytes_after_the_body_are_ignored() -> None:
    assert answer(GOOD + b"answer! and more") == (200, b"answer!")


def test_a_refusal_and_an_empty_body() -> None:
    assert answer(b"HTTP/1.0 409 Conflict\r\ncontent-length: 0\r\n\r\n") == (409, b"")


def test_of_a_long_body_is_one_byte_more_than_allowed() -> None:
    head = b"HTTP/1.1 200 OK\r\ncontent-length: 1000\r\n\r\n"
    assert answer(head, b"x" * 1000) == (200, b"x" * (MOST + 1))
    assert answer(head, b"x" * (MOST + 1)) == (200, b"x" * (MOST + 1))  # the rest is not waited for


@pytest.mark.parametrize(
    "text",
    [
        b"",
        b"HTTP/1.1 200",
        GOOD[:-1],
        GOOD + b"answer",
        b"HTTP/1.1 200 OK\r\n\r\n{}",
        b"HTTP/1.1 200 OK\r\nx-content-length: 2\r\n\r\n{}",
        b"HTTP/1.1 200 OK\r\ncontent-length: -2\r\n\r\n{}",
        b"HTTP/2 200\r\ncontent-length: 2\r\n\r\n{}",
        b"SSH-2.0-OpenSSH_9.2p1\r\n\r\n",
    ],
    ids=[
        "nothing",
        "a line",
        "a head",
        "half",
        "no length",
        "another field",
        "a sign",
        "HTTP/2",
        "SSH",
    ],
)
def test_what_is_no_answer(text: bytes) -> None:
    with pytest.raises((FaultyAnswer, ConnectionError)):
        answer(text)


def test_a_head_that_does_not_end() -> None:
    with pytest.raises(FaultyAnswer, match="does not end"):
        answer(b"HTTP/1.1 200 OK\r\n", b"a: b\r\n" * MOST_HEAD)


def test_a_server_that_is_silent() -> None:
    with socket.create_server(("127.0.0.1", 0)) as listener:
        with pytest.raises(TimeoutError):
            exchanged(Address("127.0.0.1", listener.getsockname()[1]), b"x", 0.1, MOST)
        port = listener.getsockname()[1]
    with pytest.raises(ConnectionRefusedError):
        exchanged(Address("127.0.0.1", port), b"x", 0.1, MOST)


def test_a_server_with_a_name() -> None:
    with served(GOOD, b"answer!") as (address, _):
        assert exchanged(Address("localhost", address.port), b"x", 60, MOST) == (200, b"answer!")
