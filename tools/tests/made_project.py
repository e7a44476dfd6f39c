"""A project's folder for the tests, as bsched-project makes it, with the twin in place of bsched."""
import socket
import subprocess
from pathlib import Path

from served import free_port, start, stop
from small_project import KEY, TOOLS, make_tables, request, tools

TWIN = TOOLS.parent / "bridge" / "trial" / "twin"
SETTINGS = f"""\
daily_result_quota = 100
max_hosts = 100
max_wus_in_progress = 8
max_wus_to_send = 4
operator_key = "{KEY}"
request_delay = 60
resend_lost_results = true
"""
CALL_SECONDS = 60


class MadeProject:
    """A project with 20 workunits and 4 accounts, and its scheduler."""

    def __init__(self, folder: Path) -> None:
        self.folder = folder / "sums"
        self.folder.mkdir()
        self.port = free_port()
        (self.folder / "settings.toml").write_text(SETTINGS)
        (self.folder / "environment").write_text(f"PORT={self.port}\nBRIDGE_PORT={free_port()}\n")
        (self.folder / "units.toml").write_text('[copy]\nfolder = "copies"\ncheck = false\n')
        make_tables(self.folder / "project.db")
        self.scheduler: subprocess.Popen[bytes] | None = None

    def serve(self) -> None:
        """Starts the scheduler."""
        args = ["serve", "--tables", str(self.folder / "project.db"), "--port", str(self.port)]
        self.scheduler = start([TWIN, *args, "--count", "1000000"], self.port, CALL_SECONDS)

    def end(self) -> None:
        """Kills the scheduler."""
        if self.scheduler is not None:
            stop(self.scheduler)
            self.scheduler = None

    def call(self, user: int, seqno: int, host: str = "h", **more: object) -> bytes:
        """Sends a call, and returns the answer."""
        body = request(user, seqno, host, **more)
        head = f"POST /scheduler HTTP/1.1\r\nhost: x\r\ncontent-length: {len(body)}\r\n\r\n"
        with socket.create_connection(("127.0.0.1", self.port), CALL_SECONDS) as made:
            made.sendall(head.encode() + body)
            received = b""
            while part := made.recv(65536):
                received += part
        return received.partition(b"\r\n\r\n")[2]

    def tools(self, command: str, *args: object) -> tuple[int, str, str]:
        """Runs a command of the tools for this project."""
        return tools(command, "--project", f"{self.folder}/", *args)
