"""A bridge before the twin, with the files of a project: what tests and `bridge/try_lives` work on."""
import io
from pathlib import Path
from typing import Any, cast

from twin import Twin

from bsched_bridge.application import Application
from bsched_bridge.common.code_signing import file_md5, public_key_text, signature_text
from bsched_bridge.common.host_rules import HostRuleReader
from bsched_bridge.common.state_file import StateFile
from bsched_bridge.people.passwords import Cost, Passwords
from bsched_bridge.scheduler.messages import Scheduler
from bsched_bridge.uploads.current_catalogue import CatalogueReader
from bsched_bridge.uploads.store import open_store
from bsched_files.project_settings import read_settings

BRIDGE = Path(__file__).resolve().parent.parent
# of a process that runs the bridge of this clone
ENVIRONMENT = {"PYTHONPATH": f"{BRIDGE}:{BRIDGE.parent / 'files'}", "PYTHONDONTWRITEBYTECODE": "1"}
MEMORY = "/dev/shm"
CATALOGUE = """\
code_sign_key = "key"
files = "files"

[[app]]
name = "sum"
title = "Sums & more"
command_line = "--name {workunit}"

[[version]]
app = "sum"
platform = "x86_64-pc-linux-gnu"
version_num = 1
files = [{ name = "sum_1", signature = "sum_1.signature", main_program = true }]

[[workunit]]
name = "u2"
command_line = "--two <2>"
input_files = [{ name = "two.txt", open_name = "numbers" }]
"""
ACCOUNTS = "\n[accounts]\nmost_a_day = 50\n"


def new_project(folder: Path, key: Any) -> Path:
    """Writes the files of a bridge into a folder, and returns it."""
    (folder / "files").mkdir()
    (folder / "files" / "sum_1").write_text("#!/bin/sh\n")
    (folder / "files" / "two.txt").write_text("2\n")
    (folder / "key").write_text(public_key_text(key.public_key()))
    (folder / "sum_1.signature").write_text(signature_text(file_md5(folder / "files" / "sum_1"), key))
    (folder / "catalogue.toml").write_text(CATALOGUE)
    (folder / "bridge.toml").write_text(
        'name = "Sums"\nurl = "http://127.0.0.1:8081/p/"\nlisten = "127.0.0.1:8081"\nscheduler = '
        '"127.0.0.1:8080"\n'
        'operator_key = "change-this-key"\ncatalogue = "catalogue.toml"\nstate = "bridge.db"\n'
    )
    return folder


class Bridge:
    """A bridge that can be stopped and started again. A test may send many calls in vain."""

    def __init__(self, folder: Path, twin: Twin) -> None:
        self.folder, self.twin = folder, twin
        self.start()

    def start(self) -> None:
        """Starts the bridge with what its file has."""
        path = self.folder / "bridge.toml"
        settings = read_settings(path)
        self.file = StateFile(settings.state)
        self.catalogues = catalogues = CatalogueReader(settings)
        self.store: Any = open_store(settings, catalogues.current())  # None without [uploads]
        self.application = Application(
            settings,
            catalogues.current,
            self.file,
            Scheduler(self.twin.address, answer_seconds=60),  # a busy machine may take long
            HostRuleReader(path, settings.host_rules).rules,
            Passwords(Cost(2**4, 8, 1)),
            self.store,
            catalogues.faults,
        )
        self.application.vain.most_seconds = lambda: 10**6
        self.application.statements.wait_seconds = 60  # tests look at what a page shows after the reading
        self.hosts, self.states = self.application.exchange.hosts, self.application.exchange.states
        self.members: Any = self.application.members
        self.accounts: Any = self.application.accounts  # None without [accounts]

    def restart(self) -> None:
        """Kills the bridge, which loses the answers that are only in memory, and starts it again from what is
        on the disk.
        """
        self.states._unwritten.clear()
        self.close()
        self.start()

    def close(self) -> None:
        """Closes the files of the bridge."""
        self.file.close()
        if self.store is not None:
            self.store.close()

    def got(
        self, path: str, method: str = "GET", body: bytes = b"", /, **more: str
    ) -> tuple[str, dict[str, str], bytes]:
        """Sends a message, and returns the status, the fields and the body of the answer."""
        # a character for each byte, as in WSGI
        path, _, query = path.encode().decode("latin-1").partition("?")
        environ = {
            "REQUEST_METHOD": method,
            "PATH_INFO": path,
            "QUERY_STRING": query,
            "wsgi.input": io.BytesIO(body),
            "CONTENT_LENGTH": str(len(body)) if method == "POST" else "",
            **more,
        }
        started: list[tuple[str, dict[str, str]]] = []

        def start(status: str, fields: list[tuple[str, str]]) -> None:
            started.append((status, dict(fields)))

        blocks = self.application(environ, cast(Any, start))
        body = b"".join(blocks)
        return *started[0], body

    def call(self, body: bytes | str) -> bytes:
        """Returns the reply to a scheduler_request."""
        status, _, reply = self.got("/p/cgi", "POST", body.encode() if isinstance(body, str) else body)
        assert status == "200 OK"
        return reply
