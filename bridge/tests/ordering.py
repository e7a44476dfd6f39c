"""Commands of the operator, as they are run."""
import io
import subprocess
import sys
from contextlib import redirect_stderr, redirect_stdout
from pathlib import Path
from typing import Any
from urllib.parse import urlencode

import pytest
from bridges import ENVIRONMENT, Bridge
from joining import CLIENT
from messages import request, value

from bsched_bridge.__main__ import main


def ordered(folder: Path, *words: str) -> Any:
    """Runs the command line, and returns what it did."""
    return subprocess.run(
        [sys.executable, "-m", "bsched_bridge", *words],
        cwd=folder,
        env=ENVIRONMENT,
        capture_output=True,
        text=True,
        timeout=600,
    )


ANN, PASSWORD = "ann@sums.example", "secret1"
FORM = "application/x-www-form-urlencoded"


def order(folder: Path, name: str, *words: str) -> tuple[int, str, str]:
    """Runs a command of the operator, and returns its status and what it prints."""
    argv = ["bsched-bridge", name, "--config", str(folder / "bridge.toml"), *words]
    out, err = io.StringIO(), io.StringIO()
    with pytest.MonkeyPatch.context() as patch, redirect_stdout(out), redirect_stderr(err):
        patch.setattr(sys, "argv", argv)
        patch.setattr(sys, "stdin", io.StringIO())
        status = main()
    return status, out.getvalue(), err.getvalue()


def done(folder: Path, name: str, *words: str) -> str:
    """Returns what a command prints that must succeed."""
    status, output, fault = order(folder, name, *words)
    assert (status, fault) == (0, "")
    return output


def refused(folder: Path, name: str, *words: str) -> str:
    """Returns the one line of a command that must be refused."""
    status, output, fault = order(folder, name, *words)
    assert (status, output, fault.count("\n")) == (1, "", 1)
    return fault


def posted(bridge: Bridge, page: str, **fields: str) -> str:
    """Sends a form, and returns the text of the page."""
    body = urlencode(fields).encode()
    status, _, text = bridge.got(f"/p/{page}", "POST", body, CONTENT_TYPE=FORM, REMOTE_ADDR=CLIENT)
    assert status == "200 OK"
    return text.decode()


def message(bridge: Bridge, key: str, cpid: str = "c1") -> str:
    """Returns what a client with a key reads."""
    text: str = value(bridge.call(request(key=key, cpid=cpid)), "message")
    return text


def files_with(folder: Path, text: str) -> list[str]:
    """Returns the files of a folder that have a text."""
    return [path.name for path in folder.iterdir() if path.is_file() and text.encode() in path.read_bytes()]


def is_forgotten(project: Path, bridge: Bridge, key: str) -> None:
    """Checks that nothing of a volunteer is left."""
    (row,) = bridge.file.rows(
        "SELECT email, secret, name, consent_at, is_exported FROM member WHERE authenticator = ?", key
    )
    assert row == (None, None, "deleted", None, 0)
    assert bridge.file.rows("SELECT * FROM host WHERE authenticator = ?", key) == []
    query = (
        "SELECT 1 FROM host_file WHERE host NOT IN (SELECT id FROM host) UNION ALL SELECT 1 FROM member_file "
    )
    where = "WHERE member = (SELECT id FROM member WHERE authenticator = ?)"
    assert bridge.file.rows(f"{query} {where}", key) == []
    bridge.file.close()  # the log is then in the file
    assert files_with(project, ANN) == [] and files_with(project, "Zoë") == []
    bridge.start()
