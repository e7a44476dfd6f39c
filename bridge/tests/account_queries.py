"""Queries about accounts, and what comes of them."""
from collections.abc import Callable

import pytest
from bridges import Bridge
from joining import CLIENT, key_or_number

from bsched_bridge.accounts.actions import AccountFault, Fault

EMAIL = "ann@sums.example"


def of_key(bridge: Bridge, key: str, client: str = CLIENT) -> int | str:
    """Returns the key or the error number from a look-up of a key."""
    query = f"/p/lookup_account.php?email_addr={key}&passwd_hash=00"
    found: int | str = key_or_number(bridge.got(query, REMOTE_ADDR=client))
    return found


def fault_of(act: Callable[[], object]) -> Fault:
    """Returns the fault of an action."""
    with pytest.raises(AccountFault) as raised:
        act()
    return raised.value.fault
