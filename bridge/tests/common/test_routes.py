"""The URLs: what hostile messages get."""
import time

import pytest
from bridges import Bridge


TOO_MANY_FIELDS = "&".join(["page=1"] * 40)


@pytest.mark.parametrize(
    "status, fields",
    [
        ("200 OK", {"SCRIPT_NAME": "/p", "PATH_INFO": "/users"}),
        ("200 OK", {"SCRIPT_NAME": "/p/us", "PATH_INFO": "ers"}),
        ("404 Not Found", {"SCRIPT_NAME": "/x", "PATH_INFO": "/p/users"}),
        ("404 Not Found", {"SCRIPT_NAME": "/p/users", "PATH_INFO": "/p/users"}),
        ("404 Not Found", {"PATH_INFO": "//p/users"}),
        ("404 Not Found", {"PATH_INFO": "/p//users"}),
        ("404 Not Found", {"PATH_INFO": "/p"}),
        ("404 Not Found", {"PATH_INFO": "/p/users/"}),
        ("404 Not Found", {"PATH_INFO": "/p/../p/users"}),
        ("404 Not Found", {"PATH_INFO": "/p/\xff\xfe\x00"}),
        ("404 Not Found", {"PATH_INFO": "/p/users|"}),
        ("404 Not Found", {"PATH_INFO": "/p/" + "a/" * 50_000}),
        ("404 Not Found", {"PATH_INFO": ""}),
        ("200 OK", {"QUERY_STRING": "page=%ff%fe&\xff=\xfe&%&=&&"}),
        ("200 OK", {"QUERY_STRING": "page=" + "9" * 200_000}),
        ("200 OK", {"QUERY_STRING": "page=" + "%" * 200_000}),
        ("400 Bad Request", {"QUERY_STRING": TOO_MANY_FIELDS}),
        ("400 Bad Request", {"QUERY_STRING": "&" * 200_000}),
        ("405 Method Not Allowed", {"REQUEST_METHOD": "get"}),
        ("405 Method Not Allowed", {"REQUEST_METHOD": "PROPFIND"}),
        ("405 Method Not Allowed", {"REQUEST_METHOD": ""}),
        ("200 OK", {"HTTP_HOST": "\xff:x:y", "SERVER_PORT": "x", "HTTP_COOKIE": "=;" * 50_000}),
        ("200 OK", {"CONTENT_TYPE": "multipart/form-data; boundary=" + "x" * 70_000}),
        ("200 OK", {"HTTP_RANGE": "bytes=" + "0-0," * 20_000, "HTTP_IF_NONE_MATCH": '"' * 60_000}),
    ],
)
def test_hostile_messages_have_the_status_that_they_had(
    bridge: Bridge, status: str, fields: dict[str, str]
) -> None:
    began = time.thread_time()
    assert bridge.got("/p/users", **fields)[0] == status
    assert time.thread_time() - began < 2
