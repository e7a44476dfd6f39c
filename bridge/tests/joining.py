"""What tests of accounts share: messages as BOINC's client sends them, and checks of the accounts at the end.
"""
import hashlib
import re
import time
import xml.etree.ElementTree as ElementTree
from collections.abc import Callable
from dataclasses import dataclass, field
from typing import Any, Protocol
from urllib.parse import quote

from bridges import Bridge
from messages import request, value
from twin import IMPORTS, Twin

from bsched_bridge.application import Application
from bsched_bridge.common.state_file import StateFile

CLIENT = "198.51.100.7"
OPERATORS = {line.partition(",")[0] for line in IMPORTS["accounts"].splitlines()[1:]}


def escaped(text: str) -> str:
    """Returns a text as the client writes it into a URL: everything but letters and digits is escaped."""
    return "".join(
        part
        if part.isalnum() and part.isascii()
        else quote(part, safe="")
        .replace("-", "%2D")
        .replace(".", "%2E")
        .replace("_", "%5F")
        .replace("~", "%7E")
        for part in text
    )


def client_hash(password: str, email: str) -> str:
    """Returns what the client sends for a password."""
    return hashlib.md5((password + email).encode()).hexdigest()


def account_query(page: str, email: str, password: str, **more: str) -> str:
    """Returns the URL of a message about an account."""
    values = {"email_addr": email, "passwd_hash": client_hash(password, email), **more}
    return f"/p/{page}?" + "&".join(f"{name}={escaped(text)}" for name, text in values.items())


def key_or_number(answer: tuple[str, dict[str, str], bytes]) -> Any:
    """Returns the key in an answer, or the number of its error."""
    status, fields, body = answer
    assert (status, fields["Content-Type"], fields["Cache-Control"]) == (
        "200 OK",
        "text/xml; charset=utf-8",
        "no-store",
    )
    root = ElementTree.fromstring(body)
    if root.tag == "account_out":
        assert re.fullmatch("[0-9a-f]{32}", root.findtext("authenticator") or "")
        return root.findtext("authenticator")
    number = int(root.findtext("error_num") or 0)
    assert root.tag == "error" and number < 0 and root.findtext("error_msg")
    return number


def create(
    bridge: Bridge,
    email: str = "ann@sums.example",
    password: str = "secret1",
    name: str = "ann",
    client: str = CLIENT,
    **more: str,
) -> Any:
    """Returns the key or the error number from create_account.php."""
    query = account_query("create_account.php", email, password, user_name=name, **more)
    number = key_or_number(bridge.got(query, REMOTE_ADDR=client))
    assert number not in (-161,)  # the Manager's wizard never ends after this answer to a creation
    return number


def look_up(
    bridge: Bridge, email: str = "ann@sums.example", password: str = "secret1", client: str = CLIENT
) -> Any:
    """Returns the key or the error number from lookup_account.php."""
    number = key_or_number(
        bridge.got(account_query("lookup_account.php", email, password), REMOTE_ADDR=client)
    )
    # the Manager's wizard never ends after one of these answers to a look-up
    assert number not in (-136, -161, -204, -205, -206)
    return number


def works(bridge: Bridge, key: str, cpid: str = "cpid") -> bool:
    """Returns whether a client gets a host with this key."""
    return value(bridge.call(request(key=key, cpid=cpid, seconds=0)), "hostid") is not None


def rows(bridge: Bridge) -> list[Any]:
    """Returns the accounts in the state file: the address, the key, and whether bsched has it."""
    return bridge.file.rows(
        "SELECT email, authenticator, is_imported FROM member WHERE batch IS NOT NULL ORDER BY id"
    )


def made_accounts(twin: Twin) -> list[str]:
    """Returns the keys that bsched has, without the operator's."""
    return [key for key in twin.service.machine.rows["accounts"] if key not in OPERATORS]


def wait_until(is_so: Callable[..., Any]) -> None:
    """Waits until something is so, for a minute at most: a busy machine may take long."""
    ends = time.monotonic() + 60
    while not is_so():
        assert time.monotonic() < ends, "it did not come about"
        time.sleep(0.01)


# ---- Stops


class Watched(Protocol):
    """A bridge whose writes and sends can be watched."""

    file: StateFile
    application: Application


class Stopped(BaseException):
    """Raised at the point where a bridge is stopped."""


@dataclass
class Stops:
    """Stops a bridge at the n-th of its writes and sends, before or after it. From then on the bridge does
    nothing more.
    """

    at: int
    is_after: bool
    passed: int = 0
    is_stopped: bool = False
    points: list[str] = field(default_factory=list)

    def around(self, name: str, act: Callable[..., Any]) -> Any:
        """Does one send, or stops."""
        if self.is_stopped:
            raise Stopped
        self.passed += 1
        self.points.append(name)
        if self.passed != self.at:
            return act()
        self.is_stopped = True
        if self.is_after:
            act()
        raise Stopped

    def set(self, monkeypatch: Any, bridge: Watched) -> "Stops":
        """Watches the writes and sends of a bridge."""
        transaction, message = bridge.file.transaction, bridge.application.scheduler.message
        stops = self

        class Transaction:
            """A transaction that is stopped before it begins, or after its commit."""

            def __init__(self, *args: Any, **more: Any) -> None:
                self.inner = transaction(*args, **more)

            def __enter__(self) -> Any:
                if stops.is_stopped:
                    raise Stopped
                stops.passed += 1
                stops.points.append("write")
                if stops.passed == stops.at and not stops.is_after:
                    stops.is_stopped = True
                    raise Stopped
                self.is_here = stops.passed == stops.at
                return self.inner.__enter__()

            def __exit__(self, *fault: Any) -> None:
                self.inner.__exit__(*fault)
                if self.is_here:
                    stops.is_stopped = True
                    raise Stopped

        monkeypatch.setattr(bridge.file, "transaction", Transaction)
        monkeypatch.setattr(
            bridge.application.scheduler,
            "message",
            lambda *words: self.around("send", lambda: message(*words)),
        )
        return self
