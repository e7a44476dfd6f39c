"""Tests the scripts that the units run, and what bsched-project does without root."""
import os
import re
import socket
import subprocess
import threading
from collections.abc import Iterator
from http.server import BaseHTTPRequestHandler, HTTPServer
from pathlib import Path

import pytest
from served import free_port

PACKAGING = Path(__file__).resolve().parent.parent
SERVICE = PACKAGING / "service"
KEY = "a-key_of.8"


def done(
    *args: str | Path, folder: Path | None = None, **environment: str
) -> "subprocess.CompletedProcess[str]":
    """Runs a script and returns how it ended."""
    return subprocess.run(
        [str(word) for word in args],
        cwd=folder,
        env={**os.environ, **environment},
        capture_output=True,
        text=True,
        timeout=600,
    )


def is_one_line(text: str) -> bool:
    """Returns whether a text is one line."""
    return text.count("\n") == 1 and text.endswith("\n")


@pytest.fixture
def listener() -> Iterator[socket.socket]:
    """Yields a socket that listens on a port of its own. Once it is closed, no client gets the port."""
    with socket.create_server(("127.0.0.1", free_port())) as made:
        yield made


# ---- Ports


def test_a_port_that_is_free(listener: socket.socket) -> None:
    port = listener.getsockname()[1]
    listener.close()
    completed = done(SERVICE / "port-is-free", "PORT", str(port))
    assert (completed.returncode, completed.stdout, completed.stderr) == (0, "", "")


def test_a_port_that_is_in_use(listener: socket.socket) -> None:
    port = listener.getsockname()[1]
    completed = done(SERVICE / "port-is-free", "BRIDGE_PORT", str(port))
    assert completed.returncode == 1 and is_one_line(completed.stderr)
    assert f"port {port} is in use" in completed.stderr and "BRIDGE_PORT" in completed.stderr


@pytest.mark.parametrize("port", ["", "0", "080", "65536", "100000", "80 ", "-1", "abc"])
def test_what_is_no_port(port: str) -> None:
    completed = done(SERVICE / "port-is-free", "PORT", port)
    assert (
        completed.returncode == 1
        and is_one_line(completed.stderr)
        and f"PORT is '{port}'" in completed.stderr
    )


def test_a_port_that_answers_ends_the_wait(listener: socket.socket) -> None:
    completed = done(SERVICE / "wait-for-port", str(listener.getsockname()[1]), MAINPID=str(os.getpid()))
    assert completed.returncode == 0


def test_a_process_that_has_ended_ends_the_wait(listener: socket.socket) -> None:
    port = listener.getsockname()[1]
    listener.close()
    ended = subprocess.Popen(["true"])
    ended.wait()
    assert done(SERVICE / "wait-for-port", str(port), MAINPID=str(ended.pid)).returncode == 1


def test_a_long_start_is_shown(listener: socket.socket) -> None:
    """Each second without an answer has a line, and so has the end."""
    address = listener.getsockname()
    listener.close()
    waiting = subprocess.Popen(
        [str(SERVICE / "wait-for-port"), str(address[1]), "1"],
        env={**os.environ, "MAINPID": str(os.getpid())},
        stdout=subprocess.PIPE,
        text=True,
    )
    assert waiting.stdout is not None
    line = f"process {os.getpid()} reads and checks its files, and port {address[1]} does not answer yet\n"
    seconds = []
    for _ in range(2):
        found = re.fullmatch(r"starting for (\d+) seconds: (.*\n)", waiting.stdout.readline())
        assert found and found[2] == line
        seconds.append(int(found[1]))
    assert 1 <= seconds[0] < seconds[1]
    with socket.create_server(address):
        rest = waiting.communicate(timeout=600)[0].splitlines()
    assert waiting.returncode == 0
    assert re.fullmatch(rf"started after \d+ seconds: port {address[1]} answers", rest[-1])


# ---- The tick


class Answering(BaseHTTPRequestHandler):
    """Answers a tick as bsched does."""

    def do_POST(self) -> None:
        """Answers a tick with the key; anything else gets number 13."""
        is_good = (self.path, self.headers["x-operator-key"]) == ("/tick", KEY)
        body = b'{"lapsed":2}' if is_good else b'{"error":"not_operator","number":13}'
        self.send_response(200 if is_good else 403)
        self.send_header("content-length", str(len(body)))
        self.end_headers()
        self.wfile.write(body)

    def log_message(self, *_args: object) -> None:
        """Prints nothing."""


@pytest.fixture
def scheduler_port() -> Iterator[str]:
    """Yields the port of a server that answers ticks."""
    server = HTTPServer(("127.0.0.1", 0), Answering)
    thread = threading.Thread(target=server.serve_forever)
    thread.start()
    yield str(server.server_port)
    server.shutdown()
    thread.join(10)
    server.server_close()


@pytest.mark.parametrize(
    "line",
    [
        f'operator_key = "{KEY}"',
        f"operator_key='{KEY}'",
        f'  operator_key  =  "{KEY}"  # for the tick',
    ],
)
def test_a_tick(tmp_path: Path, scheduler_port: str, line: str) -> None:
    (tmp_path / "settings.toml").write_text(f"max_hosts = 3\n{line}\nrequest_delay = 60\n")
    completed = done(SERVICE / "tick", scheduler_port, folder=tmp_path)
    assert (completed.returncode, completed.stdout, completed.stderr) == (0, '{"lapsed":2}\n', "")


def test_a_tick_with_another_key(tmp_path: Path, scheduler_port: str) -> None:
    (tmp_path / "settings.toml").write_text('operator_key = "another-key"\n')
    completed = done(SERVICE / "tick", scheduler_port, folder=tmp_path)
    assert completed.returncode == 1 and is_one_line(completed.stderr) and scheduler_port in completed.stderr


def test_a_tick_that_nobody_answers(tmp_path: Path, listener: socket.socket) -> None:
    port = str(listener.getsockname()[1])
    listener.close()
    (tmp_path / "settings.toml").write_text(f'operator_key = "{KEY}"\n')
    completed = done(SERVICE / "tick", port, folder=tmp_path)
    assert (
        completed.returncode == 1 and is_one_line(completed.stderr) and "no good answer" in completed.stderr
    )


def test_settings_without_a_key(tmp_path: Path) -> None:
    (tmp_path / "settings.toml").write_text("operator_key = 7\n")
    completed = done(SERVICE / "tick", "1", folder=tmp_path)
    assert completed.returncode == 1 and is_one_line(completed.stderr) and str(tmp_path) in completed.stderr


# ---- bsched-project


@pytest.mark.parametrize(
    "args",
    [
        [],
        ["one", "two"],
        ["--port"],
        ["--nothing", "x"],
        [""],
        [".x"],
        ["a/b"],
        ["a b"],
        ["-x"],
        ["x" * 65],
        ["sums.service"],
        ["x.timer"],
    ],
)
def test_a_bad_command_line(args: list[str]) -> None:
    completed = done(PACKAGING / "bsched-project", *args)
    assert completed.returncode == 64 and is_one_line(completed.stderr) and completed.stdout == ""


def test_help() -> None:
    completed = done(PACKAGING / "bsched-project", "--help")
    assert (
        completed.returncode == 0
        and completed.stdout.startswith("usage: bsched-project")
        and completed.stderr == ""
    )
