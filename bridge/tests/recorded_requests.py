"""Requests that clients sent, and how they are read."""
from pathlib import Path

from bsched_bridge.requests import client_requests
from bsched_bridge.requests.client_requests import ClientRequest

RECORDED = Path(__file__).parent / "requests" / "recorded"


def recorded(name: str) -> bytes:
    return (RECORDED / f"{name}.xml").read_bytes()


def read_request(body: bytes, size: int = 65_536) -> ClientRequest:
    """Returns the request in a body that comes in blocks of a size."""
    return client_requests.read_request(body[start : start + size] for start in range(0, len(body), size))
