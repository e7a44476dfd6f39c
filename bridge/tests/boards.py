"""The operator's board, as a browser of the same machine reads it."""
import re
from typing import Any
from urllib.parse import urlencode

from bridges import Bridge
from pages_seen import Page, page_of

KEY = "change-this-key"
FORM = "application/x-www-form-urlencoded"
Answer = tuple[str, dict[str, str], bytes]
Environ = dict[str, Any]


def sent(bridge: Bridge, environ: Environ | None = None, **fields: Any) -> Answer:
    """Returns the answer to a form of the board, with the operator's key if the test gives no other one."""
    body = urlencode({"key": KEY, **fields}).encode()
    more = {
        "CONTENT_TYPE": FORM,
        "REMOTE_ADDR": "127.0.0.1",
        "HTTP_ORIGIN": "http://127.0.0.1:8081",
        **(environ or {}),
    }
    return bridge.got("/p/operator/board", "POST", body, **more)


def board(bridge: Bridge, **fields: Any) -> Page:
    """Returns the board after a form."""
    return page_of(sent(bridge, **fields), has_key=True)


def cells(answer: Answer) -> list[list[str]]:
    """Returns the cells of each row of the page's tables, without their elements."""
    found = re.findall("<tr>(.*?)</tr>", answer[2].decode())
    parts = (re.findall("<t[dh].*?>(.*?)</t[dh]>", one) for one in found)
    return [[re.sub("<.*?>", "", cell) for cell in one] for one in parts]


def row(answer: Answer, name: str) -> list[str]:
    """Returns the cells after the first one, in the row whose first cell is a text."""
    return next(one[1:] for one in cells(answer) if one[0] == name)


def facts(answer: Answer) -> dict[str, str]:
    """Returns the page's facts by their names."""
    return dict(re.findall("<dt>(.*?)</dt><dd>(.*?)</dd>", answer[2].decode()))
