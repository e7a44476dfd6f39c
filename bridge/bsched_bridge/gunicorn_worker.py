"""A worker of gunicorn whose threads take connections by themselves.

In gunicorn's own worker with threads the main thread takes all connections, hands each one to a thread, and
waits for its end. Its answers go out in two pieces, it reads a body by the kilobyte, and it looks each
setting up in several steps. That takes a tenth of the processor time of a call. A proxy uses a connection
once, so none is kept open here. The unit runs gunicorn with
`--worker-class bsched_bridge.gunicorn_worker.Worker`.
"""
import errno
import math
import socket
import struct
import threading
import time
from types import SimpleNamespace
from typing import Any

from gunicorn.http import wsgi  # type: ignore[import]
from gunicorn.http.body import Body  # type: ignore[import]
from gunicorn.workers.gthread import TConn, ThreadWorker  # type: ignore[import]

WAIT_SECONDS = 1  # until a thread that waits for a connection looks whether the worker ends
PAUSE_SECONDS = 0.1  # after a connection that can't be taken, for example for want of descriptors
PASSING = (errno.EAGAIN, errno.ECONNABORTED)  # nobody came, or somebody who has gone
# how long, and how many bytes of a body that nobody needs are read after the answer
REST_SECONDS, MOST_REST = 2.0, 1024 * 1024


def set_wait(one: socket.socket, seconds: int) -> None:
    """Limits how long a read waits; 0 is without limit. A connection has the limit of its listener."""
    one.setsockopt(socket.SOL_SOCKET, socket.SO_RCVTIMEO, struct.pack("ll", seconds, 0))


class Input(Body):  # type: ignore[misc]
    """The body of a message. It reads a block at once, and not by the kilobyte."""

    def __init__(self, reader: Any, connection: socket.socket) -> None:
        super().__init__(reader)
        self._connection = connection

    def read_some(self, most: int, seconds: float) -> bytes:
        """Returns the next bytes as soon as some have come, or none at the end. Raises TimeoutError if none
        come for so many seconds.
        """
        if seconds <= 0:
            raise TimeoutError
        set_wait(self._connection, math.ceil(seconds))
        try:
            block: bytes = self.reader.unreader.read()
        except BlockingIOError:
            raise TimeoutError from None
        finally:
            set_wait(self._connection, 0)
        most = min(most, self.reader.length)
        self.reader.unreader.unread(block[most:])
        self.reader.length -= len(block[:most])
        return block[:most]

    def read(self, size: int | None = None) -> bytes:
        """Returns the next bytes, all of them without a size."""
        if size is None or size < 0 or self.buf.tell():
            return bytes(super().read(size))
        return bytes(self.reader.read(size))


class Worker(ThreadWorker):  # type: ignore[misc]
    """A worker whose threads take connections."""

    alive: bool

    def run(self) -> None:
        """Serves until the worker is told to end, and then finishes what was begun."""
        values = {name: getattr(self.cfg, name) for name in self.cfg.settings}
        self.settings = SimpleNamespace(**values, is_ssl=self.cfg.is_ssl)
        for listener in self.sockets:
            listener.setblocking(True)
            set_wait(listener, WAIT_SECONDS)
        threads = [
            threading.Thread(target=self.serve, args=(self.sockets[number % len(self.sockets)],), daemon=True)
            for number in range(self.cfg.threads)
        ]
        for thread in threads:
            thread.start()
        while self.alive and self.is_parent_alive():
            self.notify()
            time.sleep(WAIT_SECONDS)
        self.alive = False
        ends = time.monotonic() + self.cfg.graceful_timeout
        for thread in threads:
            thread.join(max(0.0, ends - time.monotonic()))

    def serve(self, listener: socket.socket) -> None:
        """Takes one connection after the other."""
        server = listener.getsockname()
        while self.alive:
            try:
                connection, client = listener.accept()
            except OSError as error:
                if error.errno not in PASSING:
                    self.log.error("no connection can be taken: %s", error.strerror)
                    time.sleep(PAUSE_SECONDS)
                continue
            set_wait(connection, 0)
            taken = TConn(self.settings, connection, client, server)
            try:
                taken.init()
                self.handle(taken)
            finally:
                taken.close()

    def handle_request(self, request: Any, taken: TConn) -> bool:
        """Answers a message. Returns whether its connection is kept. An exception goes to `handle`, which
        answers that the server failed; or StopIteration, if a part of an answer was sent.
        """
        response, environ = wsgi.create(request, taken.sock, taken.client, taken.server, self.settings)
        response.force_close()
        environ["wsgi.multithread"] = True
        environ["wsgi.input"] = Input(request.body.reader, taken.sock)
        blocks = self.wsgi(environ, response.start_response)
        try:
            if isinstance(blocks, list):
                send_whole(taken.sock, response, b"".join(blocks))
                if getattr(request.body.reader, "length", 0):
                    read_rest(taken.sock)
                return False
            if isinstance(blocks, environ["wsgi.file_wrapper"]):
                response.write_file(blocks)
            else:
                for block in blocks:
                    response.write(block)
            response.close()
        except OSError:  # nearly always since the client has gone
            raise
        except Exception:
            if not response.headers_sent:
                raise
            self.log.exception("Error handling request")
            raise StopIteration from None
        finally:
            if hasattr(blocks, "close"):
                blocks.close()
        return False


def send_whole(connection: socket.socket, response: Any, body: bytes) -> None:
    """Sends an answer at once. nginx writes the date and the name of the server."""
    head = [f"HTTP/1.1 {response.status}", "Connection: close"]
    head += [f"{name}: {value}" for name, value in response.headers]
    response.headers_sent = True
    connection.sendall("\r\n".join([*head, "", ""]).encode("latin-1") + body)


def read_rest(connection: socket.socket) -> None:
    """Reads what still comes of a body, until the other side has closed. To close a connection with unread
    bytes resets it, and nginx may not have read the answer yet.
    """
    ends, left = time.monotonic() + REST_SECONDS, MOST_REST
    connection.shutdown(socket.SHUT_WR)
    set_wait(connection, WAIT_SECONDS)
    while left > 0 and time.monotonic() < ends:
        try:
            block = connection.recv(min(left, 65536))
        except BlockingIOError:
            return
        if not block:
            return
        left -= len(block)
