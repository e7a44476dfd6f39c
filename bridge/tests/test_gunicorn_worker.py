"""The bridge under gunicorn, by the command of its unit."""
import os
import signal
import socket
import sqlite3
import time
from concurrent.futures import ThreadPoolExecutor
from pathlib import Path

import pytest
from gunicorn_served import HEAD, exchanged, served
from joining import wait_until
from messages import request, value
from twin import Twin


def test_the_operators_pages_are_for_this_machine(project: Path, twin: Twin) -> None:
    with served(project, twin) as (port, _):
        for path in ("board", "metrics"):
            head = f"GET /p/operator/{path} {HEAD}"
            assert exchanged(port, f"{head}\r\n").startswith(b"HTTP/1.1 200")
            for field in ("X-Real-IP: 192.0.2.1", "x-forwarded-for:", "Forwarded: for=192.0.2.1"):
                assert exchanged(port, f"{head}{field}\r\n\r\n").startswith(b"HTTP/1.1 404")


# ---- Several clients, a slow one, and the end


def call(hostid: int, number: int) -> str:
    """Returns the message of a call."""
    body = request(cpid=f"c{number}", hostid=hostid, seconds=0)
    return f"POST /p/cgi {HEAD}Content-Length: {len(body)}\r\n\r\n{body}"


def test_several_clients_at_once(project: Path, twin: Twin) -> None:
    """Each gets its answer, over a connection that is closed then, and a host of its own."""
    with served(project, twin) as (port, _), ThreadPoolExecutor(6) as pool:
        answers = list(pool.map(lambda number: exchanged(port, call(0, number)), range(18)))
    assert {answer[:12] for answer in answers} == {b"HTTP/1.1 200"}
    assert all(b"Connection: close" in answer for answer in answers)
    numbers = {value(answer, "hostid") for answer in answers}
    assert None not in numbers and len(numbers) == 18


def test_files_pages_and_long_messages(project: Path, twin: Twin) -> None:
    """The worker sends a file by the kernel, a page at once, and reads a body of several blocks."""
    large = bytes(range(256)) * 1000
    (project / "files" / "two.txt").write_bytes(large)
    body = request(reports=[("u1_0", "x" * 200_000)], seconds=0)
    with served(project, twin) as (port, _):
        path = "/p/download/two.txt"
        head, _, file = exchanged(port, f"GET {path} {HEAD}\r\n").partition(b"\r\n\r\n")
        assert head.startswith(b"HTTP/1.1 200") and b"Content-Length: 256000" in head and file == large
        part = exchanged(port, f"GET {path} {HEAD}Range: bytes=255-1000\r\n\r\n")
        assert part.startswith(b"HTTP/1.1 206") and part.partition(b"\r\n\r\n")[2] == large[255:1001]
        head, _, rest = exchanged(port, f"HEAD {path} {HEAD}\r\n").partition(b"\r\n\r\n")
        assert head.startswith(b"HTTP/1.1 200") and rest == b""
        for method in ("GET", "HEAD"):
            head, _, page = exchanged(port, f"{method} /p/ {HEAD}\r\n").partition(b"\r\n\r\n")
            assert head.startswith(b"HTTP/1.1 200") and (b"Sums" in page) == (method == "GET")
        answer = exchanged(port, f"POST /p/cgi {HEAD}Content-Length: {len(body)}\r\n\r\n{body}")
        assert answer.startswith(b"HTTP/1.1 200") and b"<scheduler_reply>" in answer
        incomplete = exchanged(port, f"POST /p/cgi {HEAD}\r\n")
        assert incomplete.startswith(b"HTTP/1.1 411") and incomplete.endswith(b"Length Required\n")


def test_a_client_that_sends_slowly(project: Path, twin: Twin) -> None:
    with served(project, twin) as (port, _):
        text = call(0, 1).encode()
        with socket.create_connection(("127.0.0.1", port), timeout=60) as connection:
            for part in (text[:30], text[30:-20], text[-20:]):
                connection.sendall(part)
                time.sleep(1.5)
            answer = connection.recv(65536)
    assert answer.startswith(b"HTTP/1.1 200")


def is_read(port: int, client: int) -> bool:
    """Returns whether a thread has taken the connection of a client, and has read all that was sent."""
    for line in Path("/proc/net/tcp").read_text().splitlines()[1:]:
        _, local, remote, _, queues, _, _, _, _, inode, *_ = line.split()
        if local.endswith(f":{port:04X}") and remote.endswith(f":{client:04X}"):
            return inode != "0" and queues.endswith(":00000000")
    return False


def test_a_worker_that_ends_finishes_what_was_begun(project: Path, twin: Twin) -> None:
    with served(project, twin) as (port, process):
        text = call(0, 1).encode()
        with socket.create_connection(("127.0.0.1", port), timeout=60) as connection:
            connection.sendall(text[:-20])
            wait_until(lambda: is_read(port, connection.getsockname()[1]))
            process.terminate()
            time.sleep(0.5)
            connection.sendall(text[-20:])
            answer = connection.recv(65536)
        assert process.wait(60) == 0
    assert answer.startswith(b"HTTP/1.1 200")
    with pytest.raises(OSError):
        exchanged(port, text.decode())


def test_the_last_answer_is_stored_at_the_end(project: Path, twin: Twin) -> None:
    """Its write was put off."""
    with served(project, twin) as (port, process):
        hostid = value(exchanged(port, call(0, 1)), "hostid")
        assert hostid is not None
        assert b"<scheduler_reply>" in exchanged(port, call(int(hostid), 1))
        process.terminate()
        assert process.wait(60) == 0
    connection = sqlite3.connect(project / "bridge.db")
    assert connection.execute(
        "SELECT open_call, client_seqno IS NULL FROM host JOIN host_file ON host = id"
    ).fetchall() == [(None, 0)]
    connection.close()


def test_a_worker_that_is_killed_is_replaced(project: Path, twin: Twin) -> None:
    with served(project, twin) as (port, process):
        children = Path(f"/proc/{process.pid}/task/{process.pid}/children").read_text().split()
        assert len(children) == 1
        os.kill(int(children[0]), signal.SIGKILL)
        for _ in range(600):
            try:
                if exchanged(port, call(0, 1)).startswith(b"HTTP/1.1 200"):
                    break
            except OSError:
                pass
            time.sleep(0.1)
        assert Path(f"/proc/{process.pid}/task/{process.pid}/children").read_text().split() != children
