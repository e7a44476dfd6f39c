"""Hostids that rise, in place of random ones, so that tests know them."""
import sqlite3
from collections.abc import Callable
from typing import cast

NEW_HOSTID = "bsched_bridge.exchange.host_states.new_hostid"  # what tests replace


def rising(above: Callable[[], int]) -> Callable[[sqlite3.Connection], int]:
    """Returns what gives a host the number after the last one in the state file, above a number."""

    def new_hostid(connection: sqlite3.Connection) -> int:
        last = cast(int, connection.execute("SELECT last_hostid FROM numbers").fetchone()[0])
        number = max(last, above()) + 1
        connection.execute("UPDATE numbers SET last_hostid = ?", (number,))
        return number

    return new_hostid
