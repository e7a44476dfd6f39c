"""Jobs that are handed out, with their files, and how they end."""
from time import time

from bridges import Bridge
from messages import request
from uploading import sent, upload

from bsched_bridge.catalogue.output_files import upload_name
from bsched_bridge.people.hosts import Key
from bsched_bridge.uploads.handed_out import HandedJob, HandedOut
from bsched_files.moments import DAY

SIZE, MOST = 20_000, 1_000_000  # max_nbytes of the file `out`, and most_bytes
TENTH = MOST // 10


def hand_out(bridge: Bridge, account: str, count: int, host: str = "c1") -> list[str]:
    """Notes jobs of a host as given out. Returns the name of the first output file of each."""
    files = bridge.application.catalogue.apps["sum"].output_files
    results = [f"w{account}{host}{number}_0" for number in range(count)]
    key, deadline = Key(f"{account}-key", host), int(time()) + DAY
    HandedOut(bridge.store.tables).add(HandedJob(one, key, "sum", files, deadline) for one in results)
    return [upload_name(one, 0) for one in results]


def send(bridge: Bridge, name: str, data: bytes = bytes(SIZE)) -> int:
    """Uploads a file with its token, and returns the status of the answer."""
    tokens = bridge.application.writer.tokens
    assert tokens is not None
    return sent(bridge, upload(name, data, tokens.token(name, SIZE)))


def bar(bridge: Bridge) -> None:
    """Has a job given out, and its account barred."""
    bridge.call(request(key="ann-key", cpid="ann"))
    bridge.application.exchange.barring.bar("ann-key", 1)
