"""Uploads belong to somebody: whose files are taken, and how many."""
from time import time

import pytest
from bridges import Bridge
from handing_out import SIZE, bar, hand_out, send
from sweeping import later
from uploading import DONE, NEVER, on_disk, sha256_of

from bsched_bridge.people.hosts import Key
from bsched_bridge.uploads.handed_out import HandedJob, HandedOut
from bsched_bridge.uploads.sweep import Swept, sweep
from bsched_files.moments import DAY


# ---- A token ends with its job


def test_a_job_that_is_late_can_be_uploaded(file_bridge: Bridge) -> None:
    """bsched takes its report, too."""
    files = file_bridge.application.catalogue.apps["sum"].output_files
    HandedOut(file_bridge.store.tables).add([HandedJob("w_0", Key("ann-key", "c1"), "sum", files, 5)])
    assert send(file_bridge, "w_0_0") == DONE


def test_an_account_that_is_no_longer_barred_uploads_again(file_bridge: Bridge) -> None:
    bar(file_bridge)
    assert send(file_bridge, "u1_0_0") == NEVER
    file_bridge.application.exchange.barring.unbar("ann-key")
    assert send(file_bridge, "u1_0_0") == DONE


# ---- The sweep


@pytest.mark.parametrize("is_error", [True, False], ids=["of an error", "of a barred account"])
def test_uploads_that_nobody_needs_go_after_a_day(file_bridge: Bridge, is_error: bool) -> None:
    (name,), (other,) = hand_out(file_bridge, "ann", 1), hand_out(file_bridge, "bob", 1)
    assert [send(file_bridge, name), send(file_bridge, other, b"bob")] == [DONE, DONE]
    if is_error:
        HandedOut(file_bridge.store.tables).end([name.rpartition("_")[0]], int(time()))
    barred = set() if is_error else {"ann-key", "nobody"}
    assert sweep(file_bridge.store, later(file_bridge, 0) + DAY // 2, None, barred) == Swept()
    swept = sweep(file_bridge.store, later(file_bridge, 2), None, barred)
    assert swept == Swept(uploads=1, nbytes=SIZE)
    assert list(on_disk(file_bridge.folder)) == [f"pending/{other}.{sha256_of(b'bob')}"]
