"""What the project has, read on the machine that has it, and compared with the notes."""
import csv
import io
import json
import re
import time

from debian_trial.debian import TrialFault

from .machine import Machine, quoted
from .notes import Kept, Notes, missing
from .setting_up import FOLDER

COPIES = "/root/copies"
# the copy is made by the tools; the tables are read there, and the files of uploads where they are
COPY = (
    f"rm -rf {COPIES} && mkdir {COPIES} && "
    f"bsched-tools copy --tables {FOLDER}/project.db --to {COPIES} --keep 1"
)
RESULTS = f"bsched-tools results --tables {COPIES}"
UPLOADS = f"cd {FOLDER}/bridge/uploads && find pending store -type f -exec sha256sum {{}} +"
SELECT = """python3 -c '
import sqlite3, sys
for row in sqlite3.connect(f"file:{sys.argv[1]}?mode=ro", uri=True).execute(sys.argv[2]):
    print(*row)' """
ACCOUNTS = f"{SELECT} {COPIES}/*.db 'SELECT auth FROM account'"
MEMBERS = f"{SELECT} {FOLDER}/bridge/bridge.db 'SELECT authenticator FROM member'"
UPLOADED = re.compile(r"([0-9a-f]{64})  (pending|store)/(\S+)")
MOST_SHOWN = 10


def read_kept(machine: Machine) -> Kept:
    """Returns what the project on a machine has."""
    kept = Kept()
    machine.run(COPY)
    kept.keys = set(machine.run(ACCOUNTS).split()) & set(machine.run(MEMBERS).split())
    for row in csv.DictReader(io.StringIO(machine.run(RESULTS))):
        if row["result"] == row["canonical"]:
            kept.outputs[row["result"]] = row["output"]
    for line in machine.run(UPLOADS).splitlines():
        found = UPLOADED.fullmatch(line)
        if found is None:
            raise TrialFault(f"{machine.name}: the sums of uploads have the line {line!r}")
        sha256, folder, name = found.groups()
        if not name.endswith(sha256):
            raise TrialFault(f"{machine.name}: the upload {name} has another content, {sha256}")
        kept.sums.add(sha256)
        if folder == "pending":
            kept.named_sums[name.rpartition(".")[0]] = sha256
    return kept


def compare(machine: Machine, notes: Notes) -> None:
    """Ends the trial if something that was acknowledged is missing."""
    lost = list(missing(notes, read_kept(machine)))
    if lost:
        shown = "\n".join(lost[:MOST_SHOWN])
        raise TrialFault(f"on {machine.name} {len(lost)} acknowledged things are not as they were:\n{shown}")


def body_of_call(key: str) -> str:
    """Returns a call of a computer that asks for work. The clock gives the number of the call."""
    info = {"host_cpid": "repeats", "p_fpops": 10**9, "m_nbytes": 8 * 10**9, "d_free": 8 * 10**9}
    call = {"authenticator": key, "rpc_seqno": int(time.time()), "host_info": info}
    return json.dumps({**call, "platform_name": "x86_64-pc-linux-gnu", "work_req_seconds": 10})


def answer_of(machine: Machine, body: str) -> str:
    """Returns the answer of the scheduler on a machine to a call, byte for byte."""
    send = 'curl --silent --fail --max-time 120 --data-binary @- "http://127.0.0.1:$PORT/scheduler"'
    return machine.run(f"cd {FOLDER} && . ./environment && printf %s {quoted(body)} | {send}")
