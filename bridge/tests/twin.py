"""A bsched for tests: the plain twin of bench/plain.py, served over HTTP. It can lose answers."""
import json
import threading
import time
from collections.abc import Callable
from http.server import BaseHTTPRequestHandler, ThreadingHTTPServer
from typing import Any

import plain
from plain_formats import Refused

from bsched_files.project_settings import Address

IMPORTS = {
    "accounts": "authenticator,name\nann-key,Ann\nbob-key,Bob\n",
    "apps": "name,agreement\nsum,exact\n",
    "versions": "app,platform,version_num\nsum,x86_64-pc-linux-gnu,1\n",
    "workunits": "name,app,min_quorum,target_nresults,max_error_results,max_total_results,"
    "max_success_results,delay_bound,rsc_fpops_est,rsc_memory_bound,rsc_disk_bound,credit\n"
    + "".join(f"u{number},sum,2,2,3,5,4,86400,60000000000,1000,1000,5000\n" for number in range(1, 9)),
}
STATEMENT = """\
result,app,sent,deadline,server_state,outcome,validate_state,credit
u1_0,sum,2026-01-01 00:00:00,2026-01-02 00:00:00,5,1,1,5.000
u2_0,sum,2026-01-01 00:00:00,2026-01-02 00:00:00,4,0,0,0.000
u3_0,sum,2026-01-01 00:00:00,2026-01-02 00:00:00,5,1,0,0.000
u4_0,sum,2026-01-01 00:00:00,2026-01-02 00:00:00,5,3,0,0.000
u5_0,sum,2026-01-01 00:00:00,2026-01-02 00:00:00,5,4,0,0.000
total,,,,,,,5.000
"""


def statement(machine: Any, number: int) -> str | None:
    """Returns the statement of a host with the states of its results, or None if there is no such host. Its
    times and verdicts are left out.
    """
    host = next((host for host in machine.hosts.values() if host.number == number), None)
    if host is None:
        return None
    lines = [STATEMENT.partition("\n")[0]]
    for unit in machine.places:
        for one in unit.instances:
            if one.host is host:
                state = (
                    (4, 0) if one.held() else (5, 1 if one.exit_status == 0 else 3 if one.exit_status else 4)
                )
                lines.append(f"{one.name()},{unit.app},,,{state[0]},{state[1]},0,0.000")
    return "\n".join([*lines, f"total,,,,,,,{host.credit // 1000}.{host.credit % 1000:03}", ""])


class Handler(BaseHTTPRequestHandler):
    """The handler of one message."""

    server: "Server"

    def do_POST(self) -> None:
        """Answers a call or an import."""
        twin = self.server.twin
        body = self.rfile.read(int(self.headers["content-length"]))
        if len(body) < int(self.headers["content-length"]):
            return  # the bridge was killed while it sent this; bsched does not act on such a message either
        if self.path.startswith("/import/"):
            return self.do_import(body)
        with twin.lock:
            fault = twin.faults.pop(0) if twin.faults else None
            twin.heard.append(body)
            if fault == "unheard":
                return
            if fault == "unavailable":
                status, answer = 503, '{"error":"unavailable","number":20}'
            elif fault == "garbage":
                status, answer = 200, "<html>"
            elif fault is not None and fault.startswith("{"):
                status, answer = 400, fault
            else:
                try:
                    handle = twin.handle or twin.service.scheduler
                    status, answer = 200, handle(body, int(time.time()))
                except Refused as refusal:
                    status, answer = refusal.status, refusal.body
            twin.answers.append(answer)
        if fault == "slow":
            time.sleep(0.3)
        if fault != "lost":
            self.say(status, answer)

    def do_import(self, body: bytes) -> None:
        """Answers an import."""
        twin = self.server.twin
        _, _, kind, batch = self.path.split("/")
        with twin.lock:
            fault = twin.import_faults.pop(0) if twin.import_faults else None
            twin.imports.append((batch, body.decode()))
            if fault == "unheard":
                return
            if self.headers["x-operator-key"] != "change-this-key":
                status, answer = 403, '{"error":"not_operator","number":13}'
            elif fault == "unavailable":
                status, answer = 503, '{"error":"unavailable","number":20}'
            elif fault == "garbage":
                status, answer = 200, "<html>"
            elif fault == "another":
                status, answer = 200, '{"batch":"another","kind":"accounts","rows":1}'
            elif fault is not None and fault.startswith("{"):
                status, answer = 400, fault
            else:
                try:
                    status, answer = 200, twin.service.imported(kind, batch, body.decode())
                except Refused as refusal:
                    status, answer = refusal.status, refusal.body
        if fault != "lost":
            self.say(status, answer)

    def do_GET(self) -> None:
        """Answers with a statement."""
        if self.headers["x-operator-key"] != "change-this-key":
            return self.say(403, '{"error":"not_operator","number":13}')
        twin = self.server.twin
        if twin.statement is not None:
            return self.say(200, twin.statement)
        with twin.lock:
            answer = statement(twin.service.machine, int(self.path.rpartition("/")[2]))
        return self.say(200, answer) if answer else self.say(404, '{"error":"no_such_host","number":19}')

    def say(self, status: int, answer: str) -> None:
        """Writes an answer."""
        self.send_response(status)
        self.send_header("content-length", str(len(answer.encode())))
        self.end_headers()
        self.wfile.write(answer.encode())

    def log_message(self, *_words: str) -> None:
        """Prints nothing."""


class Server(ThreadingHTTPServer):
    """A server that prints nothing about broken connections."""

    twin: "Twin"

    def handle_error(self, _request: Any, _address: tuple[str, int]) -> None:
        """Prints nothing."""


class Twin:
    """The twin, with the messages that it got.

    Each call takes one of the faults, in their order: `unheard`, `lost`, `slow`, `unavailable`, `garbage`, or
    the JSON of a refusal. Each import takes one of the import faults: the same ones but `slow`, or `another`,
    the answer to another import.
    """

    def __init__(self, **settings: int) -> None:
        self.service = plain.Service(
            {
                **plain.SETTINGS,
                "max_hosts": 100,
                "daily_result_quota": 100,
                "max_wus_in_progress": 8,
                "max_wus_to_send": 2,
                **settings,
            }
        )
        for kind, text in IMPORTS.items():
            self.service.imported(kind, "first", text)
        self.handle: Callable[[bytes, int], str] | None = None  # in place of the service's own
        self.lock = threading.Lock()
        self.faults: list[str | None] = []
        self.heard: list[bytes] = []
        self.answers: list[str] = []
        self.import_faults: list[str] = []
        self.imports: list[tuple[str, str]] = []
        self.statement: str | None = STATEMENT  # what each host gets as its statement; None: its own
        self.server = Server(("127.0.0.1", 0), Handler)
        self.server.twin = self
        self.address = Address("127.0.0.1", self.server.server_port)
        threading.Thread(target=self.server.serve_forever, args=(0.02,), daemon=True).start()

    def calls(self) -> Any:
        """Returns the calls that it got, as JSON."""
        return [json.loads(body) for body in self.heard]

    def close(self) -> None:
        """Stops the server."""
        self.server.shutdown()
        self.server.server_close()
