"""A bridge under gunicorn, by the command of its unit."""
import re
import shlex
import socket
import subprocess
import sys
import time
from collections.abc import Iterator
from contextlib import contextmanager
from pathlib import Path

import pytest
from served import free_port
from twin import Twin

BRIDGE = Path(__file__).resolve().parents[1]
UNIT = BRIDGE.parent / "debian" / "bsched-tools@.bsched-bridge.service"
HEAD = "HTTP/1.1\r\nHost: sums.example\r\nConnection: close\r\n"


def command(port: int) -> list[str]:
    """Returns the command of the unit for a port, run by this Python."""
    line = re.search(r"^ExecStart=/usr/bin/gunicorn (.*)$", UNIT.read_text(), re.MULTILINE)
    assert line is not None
    words = shlex.split(line[1].replace("${BRIDGE_PORT}", str(port)))
    return [sys.executable, "-m", "gunicorn", *words]


def exchanged(port: int, text: str) -> bytes:
    """Sends a message, and returns the answer."""
    with socket.create_connection(("127.0.0.1", port), timeout=120) as connection:
        connection.sendall(text.encode())
        answer = b""
        while block := connection.recv(65536):
            answer += block
    return answer


@contextmanager
def served(project: Path, twin: Twin) -> Iterator[tuple[int, "subprocess.Popen[str]"]]:
    """Serves a project by gunicorn, and yields the port and the process."""
    pytest.importorskip("gunicorn")
    settings = project / "bridge.toml"
    host = f"{twin.address.host}:{twin.address.port}"
    settings.write_text(settings.read_text().replace("127.0.0.1:8080", host))
    port = free_port()
    process = subprocess.Popen(
        command(port),
        cwd=project,
        env={"PYTHONPATH": f"{BRIDGE}:{BRIDGE.parent / 'files'}", "PYTHONDONTWRITEBYTECODE": "1"},
        stdout=subprocess.PIPE,
        stderr=subprocess.STDOUT,
        text=True,
    )
    try:
        for _ in range(600):
            try:
                exchanged(port, f"GET /p/ {HEAD}\r\n")
                break
            except OSError:
                time.sleep(0.1)
        else:
            raise AssertionError("gunicorn does not start")
        yield port, process
    finally:
        process.kill()
        process.communicate(timeout=60)
