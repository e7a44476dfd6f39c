"""Queries and forms: the fields that strangers send, in any bytes."""
import io
from typing import Any
from urllib.parse import quote_plus

import pytest
from hypothesis import given
from hypothesis import strategies as st
from werkzeug.exceptions import BadRequest, RequestEntityTooLarge

from bridges import Bridge
from bsched_bridge.common.http_messages import FORM, MOST_FIELDS, MOST_FORM, Message, form_of, query_of


def message(query: bytes = b"", body: bytes | None = None) -> Message:
    """Returns a message with a query, and maybe a form."""
    environ: dict[str, Any] = {
        "REQUEST_METHOD": "GET" if body is None else "POST",
        "PATH_INFO": "/p/",
        "QUERY_STRING": query.decode("latin-1"),
    }
    if body is not None:
        environ |= {"CONTENT_TYPE": FORM, "CONTENT_LENGTH": str(len(body)), "wsgi.input": io.BytesIO(body)}
    return Message(environ, populate_request=False)


def read_both(text: bytes) -> list[dict[str, str]]:
    """Returns the fields of a query and of a form with this text."""
    return [query_of(message(text)), form_of(message(body=text))]


@pytest.mark.parametrize(
    "text, fields",
    [
        (b"", {}),
        (b"&&", {}),
        (b"name=a+b%20c", {"name": "a b c"}),
        (b"name=a&name=b", {"name": "b"}),
        (b"name", {"name": ""}),
        (b"name=", {"name": ""}),
        (b"name=a=b;c", {"name": "a=b;c"}),
        (b"name=J%c3%bcrgen", {"name": "Jürgen"}),
        ("name=Jürgen".encode(), {"name": "Jürgen"}),
        (b"name=\xff", {"name": "\ufffd"}),
        (b"name=%ff", {"name": "\ufffd"}),
        (b"\xfe=a&%fe=b", {"\ufffd": "b"}),
        (b"name=%e2%82", {"name": "\ufffd"}),
        (b"name=%", {"name": "%"}),
        (b"name=%4x", {"name": "%4x"}),
    ],
)
def test_fields_of_any_bytes(text: bytes, fields: dict[str, str]) -> None:
    assert read_both(text) == [fields, fields]


@given(st.binary(max_size=200).filter(lambda text: text.count(b"&") < MOST_FIELDS))
def test_no_bytes_are_a_fault(text: bytes) -> None:
    for fields in read_both(text):
        assert len(fields) <= text.count(b"&") + 1
        assert "".join([*fields, *fields.values()]).isascii() or not text.isascii() or b"%" in text


@given(st.dictionaries(st.text(min_size=1), st.text(), max_size=8))
def test_what_is_written_as_a_query_is_read(fields: dict[str, str]) -> None:
    text = "&".join(f"{quote_plus(name)}={quote_plus(value)}" for name, value in fields.items()).encode()
    assert read_both(text) == [fields, fields]


def test_the_fields_are_limited() -> None:
    most = b"&".join(b"%d=" % number for number in range(MOST_FIELDS))
    assert [len(fields) for fields in read_both(most)] == [MOST_FIELDS, MOST_FIELDS]
    with pytest.raises(BadRequest):
        query_of(message(most + b"&"))
    with pytest.raises(BadRequest):
        form_of(message(body=most + b"&"))
    assert form_of(message(body=b"a=" + b"x" * (MOST_FORM - 2))) == {"a": "x" * (MOST_FORM - 2)}
    with pytest.raises(RequestEntityTooLarge):
        form_of(message(body=b"a=" + b"x" * (MOST_FORM - 1)))


def test_pages_and_forms_take_any_bytes(open_bridge: Bridge) -> None:
    for path in ("users", "teams", "user/1", "computers", "account", "account_finish.php", "get_passwd.php"):
        assert open_bridge.got(f"/p/{path}", QUERY_STRING="name=\xff&page=\xff&auth=\xff")[0][:3] != "500"
        for body in (b"action=\xff&key=\xff&name=\xff", b"\xff", b"%ff=%ff"):
            status = open_bridge.got(f"/p/{path}", "POST", body, CONTENT_TYPE=FORM)[0]
            assert not status.startswith("500"), (path, body)
