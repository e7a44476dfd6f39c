"""Lives of a project whose workunits may be stuck."""
from pathlib import Path
from typing import Any

import plain_tables
from small_project import WORKUNITS, make_tables, request

from bsched_files.tables import opened
from bsched_tools.stuck import Stuck, stuck_in

NOW = 1_000_000
AMOUNTS = {"memory": 1000, "disk": 1000, "operations": 3600 * 10**9, "delay": 7200}


class Life:
    """A project whose messages a test sends. It begins without workunits."""

    def __init__(self, path: Path) -> None:
        self.path = make_tables(path, units=0)
        self.tables = plain_tables.Tables(path, synchronous="OFF")
        self.service = plain_tables.Service(self.tables)
        self.calls = self.copies = 0

    def work(self, name: str, quorum: int = 1, errors: int = 1, **more: int) -> None:
        """Imports a workunit."""
        amounts = AMOUNTS | more
        limits = f"{quorum},{quorum},{errors},8,6,{amounts['delay']},{amounts['operations']}"
        row = f"{name},dock,{limits},{amounts['memory']},{amounts['disk']},5000"
        assert '"rows":1' in self.service.imported("workunits", name, f"{WORKUNITS}\n{row}\n")

    def call(self, user: int, results: list[dict[str, Any]] | None = None, **more: Any) -> str:
        """Sends a call of the user's computer."""
        self.calls += 1
        body = request(user, self.calls, f"h{user}", results=results or [], **more)
        return self.service.scheduler(body, NOW + self.calls)

    def report(self, user: int, name: str, output: str, exit_status: int = 0) -> None:
        """Has a user get all jobs and report one."""
        self.call(user, work_req_seconds=10**6)
        self.call(user, [{"name": name, "exit_status": exit_status, "output": output}])

    def copy(self) -> Path:
        """Makes a copy of the tables."""
        self.copies += 1
        path = self.path.with_name(f"copy-{self.copies}.db")
        self.tables.connection.execute("VACUUM INTO ?", (str(path),))
        return path

    def stuck(self) -> list[Stuck]:
        """Returns what is stuck."""
        with opened(self.copy()) as tables:
            return list(stuck_in(tables))
