"""A stop or a full disk while the files of a report are stored, and a statement that bsched refuses."""
import csv
import hashlib
import os
import sqlite3
import subprocess
import sys
import threading
import time
from contextlib import closing
from pathlib import Path

from messages import names, request
from served import free_port
from trial.programs import PACKAGES, TrialFault
from trial.proxy import Fault, Proxy
from uploading import file_info, report

from .attack import through
from .files import given_jobs, send_upload
from .members import attach
from .sending import asked
from .target import ATTACKER, Target, address_of, replaced

UPLOADS_BYTES = 8_000_000  # of the small disk that has the folder of uploads
LOOK_SECONDS = 60
DAYS = 2  # after which a sweep looks at what the stop left
SWEEP = f"""
import sys, time
later = time.time() + {DAYS} * 86400
time.time = lambda: later
from bsched_bridge.__main__ import main
sys.exit(main())
"""
REFUSAL = b'{"error":"bad_key"}'
OUT, REPORTED, CLIENT_ERROR = "4", "5", "3"  # states and outcomes of a statement


def mount_small_disk(target: Target) -> None:
    """Gives the folder of uploads a small disk of its own."""
    folder = target.folder / "uploads"
    folder.mkdir()
    words = ["mount", "-t", "tmpfs", "-o", f"size={UPLOADS_BYTES}", "tmpfs", str(folder)]
    subprocess.run(words, check=True, timeout=60)


def unmount(target: Target) -> None:
    """Ends the small disk. The bridge may still have files of it open."""
    subprocess.run(["umount", "-l", str(target.folder / "uploads")], check=True, timeout=60)


def message_of(result: str, data: bytes, hostid: int, seqno: int) -> str:
    """Returns a call that reports a result with its file."""
    info = file_info(f"{result}_0", data)
    return report(result, [info], hostid, key=ATTACKER, cpid="storing", seqno=seqno)


def stored(target: Target, data: bytes) -> Path:
    """Returns where a content is stored."""
    return target.folder / "uploads" / "store" / hashlib.sha256(data).hexdigest()


def contents(target: Target) -> set[str]:
    """Returns the names of the files that the rows have."""
    with closing(sqlite3.connect(target.tables, timeout=30)) as file:
        return {str(row[0]) for row in file.execute("SELECT sha256 FROM content")}


def kill_between(target: Target, body: str, path: Path) -> None:
    """Reports, and kills the bridge after the file has its name in the store and before it has its row."""
    with closing(sqlite3.connect(target.tables, isolation_level=None)) as file:
        file.execute("BEGIN IMMEDIATE")  # the row waits for this transaction
        calling = threading.Thread(target=call_in_vain, args=(target, body), daemon=True)
        calling.start()
        ends = time.monotonic() + LOOK_SECONDS
        while not path.exists():
            if time.monotonic() > ends:
                raise TrialFault("the file of the report gets no name in the store")
            time.sleep(0.01)
        target.kill_bridge()
        file.execute("ROLLBACK")
    calling.join(LOOK_SECONDS)
    target.restart_bridge()


def call_in_vain(target: Target, body: str) -> bytes:
    """Sends a call that may get no answer. Returns the reply."""
    try:
        return asked(target, address_of(0), "POST", "/cgi", body)[1]
    except OSError:
        return b""


def fill_disk(target: Target) -> Path:
    """Takes the last byte of the small disk. Returns the file that has it."""
    with closing(sqlite3.connect(target.tables, isolation_level=None)) as file:
        file.execute("PRAGMA wal_checkpoint(TRUNCATE)")  # so the next row needs room
    path = target.folder / "uploads" / "filler"
    with path.open("wb", buffering=0) as filler:
        for size in (65536, 4096, 1):
            try:
                while filler.write(bytes(size)):
                    pass
            except OSError:
                continue
    return path


def sweep_later(target: Target) -> str:
    """Runs the sweep as it runs in two days. Returns what it prints."""
    words = [sys.executable, "-c", SWEEP, "sweep", "--config", "bridge.toml"]
    environment = {**os.environ, "PYTHONPATH": PACKAGES, "PYTHONDONTWRITEBYTECODE": "1"}
    done = subprocess.run(
        words, cwd=target.folder, env=environment, capture_output=True, text=True, timeout=120
    )
    if done.returncode:
        raise TrialFault(f"the sweep ends with {done.returncode}: {done.stderr}")
    return done.stdout


def stop_while_storing(target: Target, ending: threading.Event) -> str:
    """The bridge is killed, and another time its disk is full, after the file of a report has its name in the
    store and before it has its row. The computer never calls again.
    """
    try:
        return stopped_twice(target)
    finally:
        unmount(target)


def stopped_twice(target: Target) -> str:
    """Stops the bridge in both ways, and returns what the sweep found."""
    found = given_jobs(target, "sum", 2, "storing", "storing")
    hostid, left = attach(target, "storing"), []
    for seqno, result in enumerate(found, 1):
        data = result.encode() * 1000
        send_upload(target, result, data, target.most)
        body, path = message_of(result, data, hostid, seqno), stored(target, data)
        if seqno == 1:
            kill_between(target, body, path)
        else:
            filler = fill_disk(target)
            reply = call_in_vain(target, body)
            filler.unlink()
            through(result in names(reply, "result_ack"), "a report is acknowledged on a full disk")
        if path.exists() and path.name not in contents(target):
            left.append(path)
    if len(left) != len(found):
        raise TrialFault(f"{len(left)} of {len(found)} stops left a file without its row")
    printed = sweep_later(target)
    through(any(path.exists() for path in left), f"the sweep leaves a file that has no row: {printed}")
    unknown = {path.name for path in (target.folder / "uploads" / "store").iterdir()} - contents(target)
    through(unknown, f"files without a row: {unknown}")
    return f"a kill and a full disk left {len(left)} files without their row, and the next sweep deleted them"


# ---- Statements


def refuse_statements(target: Target, ending: threading.Event) -> str:
    """The tables of uploads are lost, and bsched refuses the statement of a computer, which reports a success
    without its file.
    """
    (result,) = given_jobs(target, "sum", 1, "refused", "refused")
    hostid, port = attach(target, "refused"), free_port()
    statements = {f"/hosts/{number}" for number in hosts_of_scheduler(target)}
    target.kill_bridge()
    for path in target.tables.parent.glob("uploads.db*"):
        path.unlink()
    named = 'scheduler = "127.0.0.1:'
    replaced(target.folder / "bridge.toml", {f"{named}{target.scheduler.port}": f"{named}{port}"})
    proxy = Proxy(port, target.scheduler.port)
    refused = proxy.plan(Fault(lambda message: message.path in statements, another=REFUSAL, status=403))
    try:
        target.restart_bridge()
        body = request(
            key=ATTACKER, cpid="refused", hostid=hostid, seqno=1, seconds=0, reports=[(result, "")]
        )
        reply = call_in_vain(target, body)
        if not refused.met.is_set():
            raise TrialFault(f"the bridge asked for no statement: {reply!r}")
        through(result in names(reply, "result_ack"), "a success without its file is acknowledged")
        state = state_of(target, result)
        through(state[0] != OUT, f"bsched got the report of a success without its file: {state}")
        reply = call_in_vain(target, body.replace("<rpc_seqno>1<", "<rpc_seqno>2<"))
        through(result not in names(reply, "result_ack"), f"the report is not taken later: {reply!r}")
    finally:
        proxy.close()
    state = state_of(target, result)
    through(state != (REPORTED, CLIENT_ERROR), f"a success without its file is {state}")
    return "the report waits while the statement is refused, and is an error afterwards"


def hosts_of_scheduler(target: Target) -> list[int]:
    """Returns the numbers that bsched gave the computers."""
    with closing(sqlite3.connect(target.folder / "bridge.db")) as file:
        rows = file.execute("SELECT scheduler_hostid FROM host_file WHERE scheduler_hostid > 0").fetchall()
    return [int(row[0]) for row in rows]


def state_of(target: Target, result: str) -> tuple[str, str]:
    """Returns the state and the outcome of a result, as bsched says."""
    for number in hosts_of_scheduler(target):
        for row in csv.DictReader(target.scheduler.asked(f"/hosts/{number}").splitlines()):
            if row["result"] == result:
                return row["server_state"], row["outcome"]
    raise TrialFault(f"no computer has {result}")
