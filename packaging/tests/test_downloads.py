"""Tests the lines for nginx about downloads: nginx asks the bridge once for a file, and then sends it."""
import http.client
import ssl
import threading
from collections.abc import Iterator
from contextlib import contextmanager
from http.server import BaseHTTPRequestHandler, ThreadingHTTPServer
from pathlib import Path

import pytest
from nginx_tried import NGINX, URL, bridge_port, served, written
from project_machine import Machine
from served import free_port

CHANGED = "Sun, 29 Nov 2026 12:00:00 GMT"


class FileServer(ThreadingHTTPServer):
    """Stands for a bridge with one file, and has what it was asked."""

    def __init__(self) -> None:
        super().__init__(("127.0.0.1", 0), Handler)
        self.asked: list[tuple[str, str | None]] = []


class Handler(BaseHTTPRequestHandler):
    """The handler of one message."""

    server: FileServer

    def do_GET(self) -> None:
        """Sends the file, or says that there is none."""
        self.server.asked.append((self.path, self.headers["Range"]))
        has_file = self.path.endswith("/program_1")
        body = b"0123456789" if has_file else b"none"
        self.send_response(200 if has_file else 404)
        self.send_header("Content-Length", str(len(body)))
        self.send_header("Last-Modified", CHANGED)
        self.send_header("Accept-Ranges", "bytes")  # as the bridge does
        self.end_headers()
        self.wfile.write(body)

    def log_message(self, *_words: object) -> None:
        """Prints nothing."""


@contextmanager
def file_server() -> Iterator[FileServer]:
    """Yields a server of a file."""
    server = FileServer()
    thread = threading.Thread(target=server.serve_forever, daemon=True)
    thread.start()
    try:
        yield server
    finally:
        server.shutdown()
        thread.join(10)
        server.server_close()


@pytest.mark.skipif(NGINX is None, reason="nginx is not installed")
def test_nginx_keeps_a_file(tmp_path: Path) -> None:
    machine = Machine(tmp_path)
    made = written(machine, "sums", URL)
    folder, port, tls_port = tmp_path / "nginx", free_port(), free_port()
    folder.mkdir()
    files = [made / "limits.conf", made / "locations.conf", made / "site.conf"]
    context = ssl.create_default_context()
    context.check_hostname, context.verify_mode = False, ssl.CERT_NONE

    def got(name: str, **fields: str) -> tuple[int, bytes]:
        connection = http.client.HTTPSConnection("127.0.0.1", tls_port, context=context, timeout=120)
        connection.request("GET", f"/project/download/{name}", headers={"Host": "sums.example", **fields})
        response = connection.getresponse()
        answer = response.status, response.read()
        connection.close()
        return answer

    with file_server() as server:
        own = bridge_port(machine, "sums")
        with served(folder, files, {80: port, 443: tls_port, own: server.server_port}):
            assert got("program_1") == got("program_1") == (200, b"0123456789")
            assert got("program_1", Range="bytes=4-") == (206, b"456789")  # a client resumes a download
            assert got("program_1?a=b") == (200, b"0123456789")
            assert server.asked == [("/project/download/program_1", None)]
            assert got("nothing")[0] == got("nothing")[0] == 404  # a file that comes later is found then
            assert len(server.asked) == 3
