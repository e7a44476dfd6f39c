"""An HTTP proxy between two programs of a trial. It can lose, hold or replace answers, and cut messages."""
import http.client
import threading
from collections.abc import Callable
from dataclasses import dataclass, field
from http.server import BaseHTTPRequestHandler, ThreadingHTTPServer

ANSWER_SECONDS = 30
HOP_FIELDS = {"connection", "keep-alive", "transfer-encoding", "content-length", "date", "server", "host"}


@dataclass
class Message:
    """A message that the proxy passed on, and its answer."""

    path: str
    body: bytes
    answer: bytes | None = None  # what the other program answered
    was_handed_on: bool = False

    @property
    def answered(self) -> bytes:
        """The answer, once the other program has given it."""
        assert self.answer is not None
        return self.answer


@dataclass
class Fault:
    """A fault for the first message that fits: its answer is lost. If is_held is true, the connection stays
    open until let_go is set. With is_cut the other program gets a half of the message, before let_go is set.
    With another answer, which may have a status of its own, the other program gets nothing.
    """

    fits: Callable[[Message], bool]
    is_held: bool = False
    is_cut: bool = False
    another: bytes | None = None
    status: int = 200  # of the other answer
    # set when the other program has answered such a message
    met: threading.Event = field(default_factory=threading.Event)
    let_go: threading.Event = field(default_factory=threading.Event)
    message: Message | None = None  # that message

    @property
    def hit(self) -> Message:
        """That message, once it has come."""
        assert self.message is not None
        return self.message


class Server(ThreadingHTTPServer):
    """A server that belongs to a proxy."""

    daemon_threads = True

    def __init__(self, port: int, proxy: "Proxy") -> None:
        super().__init__(("127.0.0.1", port), Handler)
        self.proxy = proxy


class Handler(BaseHTTPRequestHandler):
    """The handler of one message."""

    protocol_version = "HTTP/1.1"
    server: Server

    def pass_on(self) -> None:
        """Passes a message on, and the answer back."""
        proxy = self.server.proxy
        self.close_connection = True
        message = Message(self.path, self.rfile.read(int(self.headers.get("content-length", 0))))
        proxy.messages.append(message)
        fields = {name: value for name, value in self.headers.items() if name.lower() not in HOP_FIELDS}
        connection = http.client.HTTPConnection("127.0.0.1", proxy.target, timeout=ANSWER_SECONDS)
        if fault := proxy.fault_of(message, is_before=True):
            return self.cut(connection, message, fields, fault) if fault.is_cut else self.give(fault)
        try:
            connection.request(
                self.command, self.path, message.body if self.command == "POST" else None, fields
            )
            response = connection.getresponse()
            message.answer = response.read()
        except (OSError, http.client.HTTPException):
            return
        finally:
            connection.close()
        if fault := proxy.fault_of(message):
            fault.met.set()
            if fault.is_held:
                fault.let_go.wait(ANSWER_SECONDS)
            return
        try:
            self.send_response(response.status, response.reason)
            for name, value in response.getheaders():
                if name.lower() not in HOP_FIELDS:
                    self.send_header(name, value)
            self.send_header("content-length", str(len(message.answer)))
            self.send_header("connection", "close")
            self.end_headers()
            self.wfile.write(message.answer)
            message.was_handed_on = True
        except OSError:
            pass

    def cut(
        self, connection: http.client.HTTPConnection, message: Message, fields: dict[str, str], fault: Fault
    ) -> None:
        """Passes a half of a message on, and waits."""
        connection.putrequest(self.command, self.path)
        for name, value in fields.items():
            connection.putheader(name, value)
        connection.putheader("content-length", str(len(message.body)))
        connection.endheaders()
        connection.send(message.body[: len(message.body) // 2])
        fault.met.set()
        fault.let_go.wait(ANSWER_SECONDS)
        connection.close()

    def give(self, fault: Fault) -> None:
        """Gives an answer of the proxy's own."""
        answer = fault.another or b""
        self.send_response(fault.status)
        self.send_header("content-length", str(len(answer)))
        self.end_headers()
        self.wfile.write(answer)

    do_GET = do_POST = pass_on

    def log_message(self, *_words: object) -> None:
        """Prints nothing: no line for each message."""


class Proxy:
    """A proxy that listens on one port of 127.0.0.1 and passes on to another."""

    def __init__(self, port: int, target: int):
        self.target = target
        self.messages: list[Message] = []
        self._faults: list[Fault] = []
        self._lock = threading.Lock()
        self._server = Server(port, self)
        threading.Thread(target=self._server.serve_forever, daemon=True).start()

    def close(self) -> None:
        """Gives the port back."""
        self._server.shutdown()
        self._server.server_close()

    def plan(self, fault: Fault) -> Fault:
        """Plans a fault. It happens once."""
        with self._lock:
            self._faults.append(fault)
        return fault

    def fault_of(self, message: Message, is_before: bool = False) -> Fault | None:
        """Takes and returns the first planned fault that a message fits, of those for messages or for
        answers.
        """
        with self._lock:
            planned = [one for one in self._faults if is_before == (one.is_cut or one.another is not None)]
            fault = next((one for one in planned if one.fits(message)), None)
            if fault is not None:
                self._faults.remove(fault)
                fault.message = message
                if fault.another is not None:
                    fault.met.set()
            return fault
