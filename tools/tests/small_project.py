"""A small project for the tests, and the plain twin that serves it in another process."""
import json
import os
import sqlite3
import subprocess
import sys
import urllib.request
from pathlib import Path
from typing import Any

import plain_tables
from plain_formats import KINDS

TOOLS = Path(__file__).resolve().parent.parent
BENCH = TOOLS.parent / "bench"
PACKAGES = f"{TOOLS}:{TOOLS.parent / 'files'}"
KEY = "change-this-key"
SETTINGS = {
    "daily_result_quota": 100,
    "max_hosts": 100,
    "max_wus_in_progress": 8,
    "max_wus_to_send": 4,
    "operator_key": KEY,
    "request_delay": 60,
    "resend_lost_results": True,
}
WORKUNITS = ",".join(KINDS["workunits"][0])
LIMITS = "2,2,3,8,6,7200,3600000000000,1000,1000,5000"
END = 60  # seconds; a busy machine may take long


def make_tables(path: Path, units: int = 20, users: int = 4, settings: dict[str, Any] = SETTINGS) -> Path:
    """Makes a small project in a file."""
    plain_tables.create(path, settings)
    tables = plain_tables.Tables(path, synchronous="OFF")
    service = plain_tables.Service(tables)
    accounts = "".join(f"k{n},User {n}\n" for n in range(1, users + 1))
    service.imported("accounts", "b1", f"authenticator,name\n{accounts}")
    service.imported("apps", "b1", "name,agreement\ndock,exact\nfold,within:2\n")
    service.imported("versions", "b1", "app,platform,version_num\ndock,linux,1\nfold,linux,2\n")
    rows = "".join(f"w{n},dock,{LIMITS}\n" for n in range(1, units + 1))
    service.imported("workunits", "b1", f"{WORKUNITS}\n{rows}")
    tables.connection.close()
    return path


def made_anew(path: Path) -> Path:
    """Changes a copy as if the project had been made anew from the same files: all jobs went out later."""
    connection = sqlite3.connect(path)
    connection.execute("UPDATE instance SET sent = sent + 1, deadline = deadline + 1 WHERE sent IS NOT NULL")
    connection.commit()
    connection.close()
    return path


def request(user: int, seqno: int, host: str = "h", **more: Any) -> bytes:
    """Returns the body of a call."""
    return json.dumps(
        {
            "authenticator": f"k{user}",
            "rpc_seqno": seqno,
            "platform_name": "linux",
            "host_info": {"host_cpid": host, "p_fpops": 10**9, "m_nbytes": 10**9, "d_free": 10**9},
            **more,
        }
    ).encode()


class Twin:
    """The plain twin, which serves tables in another process."""

    def __init__(self, path: Path) -> None:
        command = [sys.executable, str(BENCH / "plain_tables.py"), str(path), "0"]
        self.process = subprocess.Popen(command, stdout=subprocess.PIPE, text=True)
        assert self.process.stdout is not None
        self.port = int(self.process.stdout.readline())

    def call(self, user: int, seqno: int, **more: Any) -> Any:
        """Returns the reply to a call."""
        url = f"http://127.0.0.1:{self.port}/scheduler"
        message = urllib.request.Request(url, request(user, seqno, **more))
        with urllib.request.urlopen(message, timeout=END) as response:
            return json.load(response)

    def end(self) -> None:
        """Kills the process."""
        self.process.kill()
        self.process.communicate(timeout=END)


def tools(*args: object, seconds: float = 10 * END) -> tuple[int, str, str]:
    """Runs the tools, and returns their status and what they print."""
    command = [sys.executable, "-m", "bsched_tools", *map(str, args)]
    own = {"PYTHONPATH": f"{PACKAGES}:{TOOLS.parent / 'bridge'}", "PYTHONDONTWRITEBYTECODE": "1"}
    completed = subprocess.run(
        command, capture_output=True, text=True, timeout=seconds, env={**os.environ, **own}
    )
    return completed.returncode, completed.stdout, completed.stderr


def rows_of(path: Path, query: str) -> list[Any]:
    """Returns the rows of a query over a file."""
    connection = sqlite3.connect(path)
    try:
        return connection.execute(query).fetchall()
    finally:
        connection.close()
