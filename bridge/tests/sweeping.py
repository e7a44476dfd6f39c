"""Uploads that a sweep finds."""
from bridges import Bridge
from messages import FIRST, jobs, names, request
from uploading import file_info, report, sent, tokens_of, upload

from bsched_files.moments import DAY

RIGHT, WRONG = b"right\n", b"wrong\n"


def ran(bridge: Bridge, user: str, data: bytes, is_reported: bool = True) -> str:
    """Has a user's host get a job, upload a file and report it. Returns the name of the result."""
    hostid = FIRST + ("ann", "bob").index(user)
    is_new = bridge.hosts.count() < hostid - FIRST + 1
    reply = bridge.call(request(key=f"{user}-key", cpid=user, hostid=0 if is_new else hostid, seconds=60))
    result = jobs(reply)[-1]
    name = f"{result}_0"
    assert sent(bridge, upload(name, data, tokens_of(reply)[name])) == 0
    if is_reported:
        body = report(result, [file_info(name, data)], hostid=hostid, key=f"{user}-key", cpid=user)
        assert names(bridge.call(body), "result_ack") == [result]
    return result


def later(bridge: Bridge, days: int) -> int:
    """Returns a moment some days from now."""
    from time import time

    return int(time()) + days * DAY
