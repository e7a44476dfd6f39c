"""Copies of tables that a program serves, as tests take them."""
import time

from small_project import END, Twin


SEQNOS = """
SELECT auth, max(seqno)
FROM kept4 JOIN host ON host.id = host_id JOIN account ON account.id = account_id GROUP BY auth
"""


def state_of(pid: int) -> str:
    """Returns the state of a process."""
    with open(f"/proc/{pid}/stat") as file:
        return file.read().rpartition(")")[2].split()[0]


def goes_on(twin: Twin) -> bool:
    """Returns whether a process runs. It does within a second; a busy machine may need longer."""
    ends = time.monotonic() + END
    while state_of(twin.process.pid) == "T" and time.monotonic() < ends:
        time.sleep(0.005)
    return state_of(twin.process.pid) != "T"
