"""Large calls through nginx, with the files of a project, and gunicorn, by the command of the unit."""
import http.client
import socket
import ssl
import time
from collections.abc import Iterator
from contextlib import contextmanager
from dataclasses import dataclass
from pathlib import Path

import pytest
from bridges import new_project
from gunicorn_served import served as bridge_served
from joining import wait_until
from messages import names, request, value
from nginx_tried import NGINX, URL, bridge_port, served, written
from project_machine import Machine
from served import free_port
from twin import Twin

from bsched_bridge.common.code_signing import new_key
from bsched_bridge.exchange.large_calls import LARGE

pytestmark = pytest.mark.skipif(NGINX is None, reason="nginx is not installed")
HEAD = "POST /project/cgi HTTP/1.1\r\nHost: sums.example\r\nConnection: close\r\n"
MOST = 16 * 1024 * 1024


@dataclass(frozen=True)
class Site:
    """A project with its bridge at nginx."""

    port: int
    folder: Path  # of nginx
    project: Path
    twin: Twin

    def begun(self, text: str, length: int) -> ssl.SSLSocket:
        """Sends the front of a call of a length. Returns the connection."""
        context = ssl.create_default_context()
        context.check_hostname, context.verify_mode = False, ssl.CERT_NONE
        plain = socket.create_connection(("127.0.0.1", self.port), timeout=120)
        connection = context.wrap_socket(plain)
        connection.sendall(f"{HEAD}Content-Length: {length}\r\n\r\n{text}".encode())
        return connection

    def answer(self, text: str) -> bytes:
        """Returns the answer to a whole call."""
        with self.begun(text, len(text)) as connection:
            return answer_of(connection)

    def bodies(self) -> list[Path]:
        """Returns what nginx has on the disk of messages and answers."""
        kinds = ("client_body", "proxy")
        return [one for kind in kinds for one in (self.folder / "log" / kind).rglob("*") if one.is_file()]


def answer_of(connection: ssl.SSLSocket) -> bytes:
    """Returns the answer that comes."""
    response = http.client.HTTPResponse(connection)
    response.begin()
    assert response.status == 200, response.status
    return response.read()


@pytest.fixture(scope="module")
def site(tmp_path_factory: pytest.TempPathFactory) -> Iterator[Site]:
    """Runs all of it."""
    machine, folder = Machine(tmp_path_factory.mktemp("projects")), tmp_path_factory.mktemp("nginx")
    files = written(machine, "sums", URL)
    port, tls_port = free_port(), free_port()
    project = new_project(tmp_path_factory.mktemp("bridge"), new_key())
    settings = project / "bridge.toml"
    settings.write_text(settings.read_text().replace("8081/p/", "8081/project/"))
    paths = [files / name for name in ("limits.conf", "locations.conf", "site.conf")]
    twin = Twin(max_wus_in_progress=8)
    twin.statement = None
    with bridge_served(project, twin) as (own, _):
        with served(folder, paths, {80: port, 443: tls_port, bridge_port(machine, "sums"): own}):
            yield Site(tls_port, folder, project, twin)
    twin.close()


@contextmanager
def bodies_coming(site: Site, key: str, count: int) -> Iterator[list[ssl.SSLSocket]]:
    """Begins calls of an account whose bodies don't come to their end."""
    front = request(key=key)[:80]
    connections = [site.begun(front, LARGE) for _ in range(count)]
    try:
        yield connections
    finally:
        for connection in connections:
            connection.close()


def test_the_largest_call_of_a_known_host(site: Site) -> None:
    """A host reports as much as it can: nothing of it is on the disk of nginx."""
    hostid = value(site.answer(request(seconds=60)), "hostid")
    assert hostid is not None
    reports = [("u1_0", "42"), *((f"other{number}_0", "x" * 60_000) for number in range(275))]
    text = request(hostid=hostid, seqno=1, seconds=0, listed=[], reports=reports)
    assert MOST - 300_000 < len(text) < MOST
    with site.begun(text[:-1000], len(text)) as connection:
        assert site.bodies() == []
        connection.sendall(text[-1000:].encode())
        assert "u1_0" in names(answer_of(connection), "result_ack")
    assert site.bodies() == []


def answer_after(site: Site, front: str, more: int) -> bytes:
    """Returns the answer to the front of a call if that many bytes more are sent before it is read, or
    nothing if it was lost.
    """
    with site.begun(front, MOST) as connection:
        for _ in range(more // 100_000):
            connection.sendall(bytes(100_000))
        response = http.client.HTTPResponse(connection)
        response.begin()
        assert response.status in (200, 502), response.status
        return response.read() if response.status == 200 else b""


def test_a_stranger_gets_an_answer_to_the_front(site: Site) -> None:
    """Also a client that sends on before it reads. The bridge reads on for 2 seconds and 1 MB. On a machine
    that stops for longer nginx may lose the answer (502), and the client calls again.
    """
    front = request(key="made-up")[:80]
    with site.begun(front, MOST) as connection:
        assert b"Invalid or missing account key" in answer_of(connection)
    assert any(b"Invalid or missing account key" in answer_after(site, front, 800_000) for _ in range(20))
    assert site.bodies() == []


def test_a_front_that_stays_away_ends(site: Site) -> None:
    """Then a thread of the bridge is free again."""
    began = time.monotonic()
    with site.begun("<scheduler_request>", MOST) as connection:
        response = http.client.HTTPResponse(connection)
        response.begin()
        assert response.status == 400
    assert time.monotonic() - began > 1  # it had some time


def test_an_account_has_two_turns(site: Site) -> None:
    """A third body is put off at once, and small calls are answered."""
    spooled = len(list_open(site))
    with bodies_coming(site, "bob-key", 2):
        wait_until(lambda: len(list_open(site)) == spooled + 2)
        with site.begun(request(key="bob-key")[:80], MOST) as connection:
            # nginx has two places for an address, so it may be nginx that refuses it
            response = http.client.HTTPResponse(connection)
            response.begin()
            assert response.status == 503
        assert value(site.answer(request(key="bob-key", cpid="b", seconds=0)), "user_name") == "Bob"
    wait_until(lambda: len(list_open(site)) == spooled)


def list_open(site: Site) -> list[str]:
    """Returns the files without a name that somebody has open in the folder of the bridge."""
    found = []
    for one in Path("/proc").glob("[0-9]*/fd/*"):
        try:
            target = str(one.readlink())
        except OSError:
            continue
        if target.startswith(f"{site.project}/#"):
            found.append(target)
    return found
