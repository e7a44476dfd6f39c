"""A message over a connection of its own, as bsched takes them, and the answer to it.

bsched closes the connection after each answer. http.client does the same, and takes several times the
processor time.
"""
import re
import socket

from bsched_files.project_settings import Address

MOST_HEAD = 65_536  # bytes of an answer before its body
BLOCK = 16_384
STATUS = re.compile(rb"HTTP/1\.[01] ([1-5][0-9][0-9])[ \r]")
LENGTH = re.compile(rb"\r\ncontent-length:[ \t]*([0-9]{1,18})[ \t]*\r\n", re.IGNORECASE)
HEAD_ENDS = b"\r\n\r\n"


class FaultyAnswer(Exception):
    """Raised for an answer that is incomplete, or that no bsched gives."""


def message_of(address: Address, method: str, path: str, body: bytes | None, fields: dict[str, str]) -> bytes:
    """Returns the bytes of a message."""
    lines = [f"{method} {path} HTTP/1.1", f"host: {address.host}:{address.port}"]
    lines += [f"{name}: {value}" for name, value in fields.items()]
    if body is not None:
        lines.append(f"content-length: {len(body)}")
    return "\r\n".join([*lines, "", ""]).encode() + (body or b"")


def connected(address: Address, seconds: float) -> socket.socket:
    """Returns a connection. Each of its steps may take so many seconds."""
    try:
        socket.inet_pton(socket.AF_INET, address.host)
    except OSError:  # a name
        return socket.create_connection((address.host, address.port), seconds)
    connection = socket.socket(socket.AF_INET, socket.SOCK_STREAM)
    try:
        connection.settimeout(seconds)
        connection.connect((address.host, address.port))
    except BaseException:
        connection.close()
        raise
    return connection


def exchanged(address: Address, message: bytes, seconds: float, most: int) -> tuple[int, bytes]:
    """Sends a message, and returns the status of the answer and its body. Of a body longer than `most` it
    returns the first bytes, one more than that. Raises TimeoutError, OSError or FaultyAnswer.
    """
    with connected(address, seconds) as connection:
        connection.sendall(message)
        answer = b""
        while HEAD_ENDS not in answer:
            answer += received(connection)
            if len(answer) > MOST_HEAD:
                raise FaultyAnswer("the head of the answer does not end")
        head, _, first = answer.partition(HEAD_ENDS)
        status, length = read_head(head)
        blocks, left = [first], min(length, most + 1) - len(first)
        while left > 0:
            blocks.append(received(connection))
            left -= len(blocks[-1])
    return status, b"".join(blocks)[: min(length, most + 1)]


def received(connection: socket.socket) -> bytes:
    """Returns the next bytes of an answer."""
    block = connection.recv(BLOCK)
    if not block:
        raise FaultyAnswer("the answer is incomplete")
    return block


def read_head(head: bytes) -> tuple[int, int]:
    """Returns the status of an answer, and the length of its body."""
    status, length = STATUS.match(head), LENGTH.search(head + b"\r\n")
    if status is None or length is None:
        raise FaultyAnswer("the answer is no answer of bsched")
    return int(status[1]), int(length[1])
