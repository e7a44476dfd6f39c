"""Jobs of an application with output files, from their uploads to their reports."""
from typing import Any

from bridges import Bridge
from messages import jobs, names, request
from uploading import file_info, sent, tokens_of, upload

OUT, LOG = b"the answer\n", b"some lines\n"


def worked(bridge: Bridge, out: bytes = OUT, log: bytes | None = None, **more: Any) -> list[str]:
    """Has a client get a job and upload its files. Returns the elements of its report."""
    reply = bridge.call(request(**more))
    tokens, (result,) = tokens_of(reply), jobs(reply)
    infos = []
    for place, data, most in ((0, out, 20_000), (1, log, 1000)):
        if data is not None:
            name = f"{result}_{place}"
            assert sent(bridge, upload(name, data, tokens[name], max_nbytes=most)) == 0
            infos.append(file_info(name, data))
    return infos


def reported(bridge: Bridge, body: str) -> tuple[int, str]:
    """Sends a report. Returns what bsched got: the exit status and the output of the result."""
    reply = bridge.call(body)
    assert names(reply, "result_ack")
    (result,) = bridge.twin.calls()[-1]["results"]
    return result["exit_status"], result["output"]
