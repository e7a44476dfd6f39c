"""Jobs whose clients may upload files."""
from typing import Any

from bridges import Bridge
from messages import jobs, request
from uploading import tokens_of


def given(bridge: Bridge, **more: Any) -> dict[str, str]:
    """Gives a client a job, and returns the tokens of its files."""
    reply = bridge.call(request(**more))
    assert jobs(reply)
    return tokens_of(reply)
