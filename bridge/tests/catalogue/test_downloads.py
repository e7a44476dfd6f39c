"""Files that clients download."""
import os

import pytest
from bridges import Bridge


def test_downloads(bridge: Bridge) -> None:
    status, fields, body = bridge.got("/p/download/sum_1")
    assert (status, fields["Content-Length"], body) == ("200 OK", "10", b"#!/bin/sh\n")
    status, fields, body = bridge.got("/p/download/sum_1", HTTP_RANGE="bytes=2-")
    assert (status, fields["Content-Range"], body) == ("206 Partial Content", "bytes 2-9/10", b"/bin/sh\n")
    assert bridge.got("/p/download/sum_1", HTTP_RANGE="bytes=10-")[0] == "416 Range Not Satisfiable"
    for whole in ("bytes=0-1,3-4", "lines=1-", "bytes=x", "bytes=1-" + "9" * 5000, "bytes"):
        assert bridge.got("/p/download/sum_1", HTTP_RANGE=whole)[::2] == ("200 OK", b"#!/bin/sh\n")
    status, fields, body = bridge.got("/p/download/sum_1", HTTP_RANGE="bytes=-3")
    assert (status, fields["Content-Range"], body) == ("206 Partial Content", "bytes 7-9/10", b"sh\n")
    status, fields, body = bridge.got("/p/download/sum_1", HTTP_RANGE="bytes=2-4")
    assert (fields["Content-Range"], fields["Content-Length"], body) == ("bytes 2-4/10", "3", b"/bi")
    assert bridge.got("/p/download/sum_1", "HEAD")[2] == b""
    changed = fields["Last-Modified"]  # nginx asks whether its copy is still good
    assert bridge.got("/p/download/sum_1", HTTP_IF_MODIFIED_SINCE=changed)[::2] == ("304 Not Modified", b"")
    part = bridge.got("/p/download/sum_1", HTTP_RANGE="bytes=2-4", HTTP_IF_RANGE=changed)
    assert part[::2] == ("206 Partial Content", b"/bi")
    os.utime(bridge.folder / "files" / "sum_1", (0, 0))
    assert bridge.got("/p/download/sum_1", HTTP_IF_MODIFIED_SINCE=changed)[2] == b"#!/bin/sh\n"
    whole_again = bridge.got("/p/download/sum_1", HTTP_RANGE="bytes=2-4", HTTP_IF_RANGE=changed)
    assert whole_again[::2] == ("200 OK", b"#!/bin/sh\n")
    assert bridge.got("/p/download/sum_1", "POST")[0] == "405 Method Not Allowed"


ODD_CONDITIONS = (
    "Mon, 01 Jan 99999999999999999999 00:00:00 GMT",
    "Mon, 01 Jan 2026 00:00:00 +99999999999999",
    "Mon, 01 Jan 2026 00:00:00 -9999",
    "Mon, 01 Jan 0001 00:00:00 +2359",
    '"tag"',
    'W/"tag", *',
    "\xb2",
    "",
)


@pytest.mark.parametrize("value", ODD_CONDITIONS)
def test_odd_conditions_of_downloads(bridge: Bridge, value: str) -> None:
    for name in ("RANGE", "MODIFIED_SINCE", "UNMODIFIED_SINCE", "NONE_MATCH", "MATCH"):
        for more in ("", "bytes=2-4"):
            fields = {"HTTP_RANGE": more} if more else {}
            status = bridge.got("/p/download/sum_1", **fields, **{f"HTTP_IF_{name}": value})[0]
            assert status in ("200 OK", "206 Partial Content"), name
    assert bridge.got("/p/download/sum_1", HTTP_RANGE=value)[0] == "200 OK"
    assert bridge.got("/p/download/sum_1", HTTP_RANGE=f"bytes={value}-\xb3")[0] == "200 OK"


@pytest.mark.parametrize(
    "name", ["", "none", "../key", "..", ".", "/etc/passwd", "%2e%2e", "a/b", "sum_1/", "\x00"]
)
def test_what_may_not_be_downloaded(bridge: Bridge, name: str) -> None:
    assert bridge.got(f"/p/download/{name}")[0] == "404 Not Found"
