"""What the bridge measures in memory: the tally of calls, times of answers from bins, and reported errors."""
import math
from bisect import bisect_left
from concurrent.futures import ThreadPoolExecutor

import pytest
from hypothesis import given
from hypothesis import strategies as st

from bsched_bridge.people import measurements
from bsched_bridge.people.hosts import Key
from bsched_bridge.people.measurements import (
    BOUNDS,
    Calls,
    End,
    Measurements,
    Reports,
    UploadCounts,
    UploadEnd,
)
from bsched_bridge.requests.client_requests import Report

GOOD, ERROR = Report("r", 0, ""), Report("r", 1, "")


class Clock:
    """A clock that tests set."""

    def __init__(self, now: float) -> None:
        self.now = now

    def __call__(self) -> float:
        return self.now


# ---- Times


def test_times_are_spread_evenly_within_a_bin() -> None:
    calls = Calls()
    assert calls.all().quantile(0.5) is None
    for seconds in [0.004] * 50 + [0.04] * 50:  # from 0.0025 to 0.005, and from 0.025 to 0.05
        calls.record(End.ANSWERED, seconds)
    found = calls.all()
    assert found.quantile(0.25) == pytest.approx(0.00375)  # half of the first 50
    assert found.quantile(0.5) == pytest.approx(0.005)  # all of them
    assert found.quantile(0.99) == pytest.approx(0.025 + 0.025 * 49 / 50)
    assert found.count == 100 and found.seconds == pytest.approx(50 * 0.004 + 50 * 0.04)


def test_a_time_of_a_bound_is_within_it() -> None:
    for place, bound in enumerate(BOUNDS):
        calls = Calls()
        calls.record(End.ANSWERED, bound)
        assert calls.all().bins[place] == 1


def test_what_takes_longest_counts_as_the_last_bound() -> None:
    calls = Calls()
    calls.record(End.NO_ANSWER, 31.0)
    assert calls.all().bins[-1] == 1
    assert calls.all().quantile(0.5) == calls.all().quantile(0.99) == 30.0


@given(
    st.lists(st.floats(0.0001, 40.0), min_size=1, max_size=60), st.sampled_from((0.1, 0.5, 0.9, 0.99, 1.0))
)
def test_an_estimate_is_in_the_bin_of_the_time(times: list[float], share: float) -> None:
    calls = Calls()
    for seconds in times:
        calls.record(End.ANSWERED, seconds)
    exact = sorted(times)[math.ceil(share * len(times)) - 1]
    estimate = calls.all().quantile(share)
    place = bisect_left(BOUNDS, exact)
    lower, upper = (0.0, *BOUNDS)[place], (*BOUNDS, BOUNDS[-1])[place]
    assert estimate is not None and lower - 1e-9 <= estimate <= upper + 1e-9


# ---- Spans


def test_calls_of_the_last_minutes() -> None:
    clock = Clock(6000.0)  # the first second of a minute
    calls = Calls(clock)
    calls.record(End.ANSWERED, 0.001)
    clock.now += 30
    # half a minute went by, and a call in it is not two a minute
    assert (calls.latest(5)[0].ends, calls.latest(5)[1]) == ({End.ANSWERED: 1}, 1.0)
    clock.now += 90
    calls.record(End.BARRED, 0.001)
    found, minutes = calls.latest(5)
    assert (found.ends, minutes) == ({End.ANSWERED: 1, End.BARRED: 1}, 2.0)
    clock.now = 6000.0 + 4 * 60 + 30  # the first minute is one of the last five
    assert (calls.latest(5)[0].count, calls.latest(5)[1]) == (2, 4.5)
    clock.now = 6000.0 + 5 * 60 + 30
    found, minutes = calls.latest(5)
    assert (found.ends, minutes) == ({End.BARRED: 1}, 4.5)
    assert calls.all().ends == {End.ANSWERED: 1, End.BARRED: 1}


def test_an_hour_is_kept() -> None:
    clock = Clock(0.0)
    calls = Calls(clock)
    for minute in range(180):
        clock.now = 60.0 * minute
        calls.record(End.ANSWERED, 0.001)
    assert len(calls._minutes) == 60
    assert (calls.latest(60)[0].count, calls.latest(60)[1]) == (60, 59.0)
    clock.now = 60.0 * 100_000  # nothing was called since
    assert (calls.latest(60)[0].count, calls.all().count) == (0, 180)


def test_threads_count_together() -> None:
    measured = Measurements()

    def count(_: int) -> None:
        for _ in range(200):
            measured.calls.record(End.ANSWERED, 0.001)
            measured.reports.record(Key("k", "c"), [ERROR, GOOD], ["r"])
            measured.uploads.record(UploadEnd.RECEIVED, 3)

    with ThreadPoolExecutor(8) as pool:
        list(pool.map(count, range(8)))
    assert measured.calls.all().count == 1600
    assert measured.reports.totals() == (1600, 1600)
    assert measured.reports.worst(1) == [(Key("k", "c"), 1600, 3200)]
    assert measured.uploads.totals()[1] == 4800


# ---- Reports and uploads


def test_hosts_count_since_their_first_error() -> None:
    reports = Reports()
    reports.record(Key("a", "1"), [GOOD, GOOD], ["r"])
    assert (reports.worst(5), reports.totals()) == ([], (2, 0))
    reports.record(Key("a", "1"), [ERROR, GOOD], ["r"])
    reports.record(Key("a", "1"), [GOOD], ["r"])
    reports.record(Key("a", "2"), [ERROR, ERROR], ["r"])
    reports.record(Key("a", "2"), [], [])
    reports.record(Key("a", "2"), [ERROR, Report("another", 1, "")], ["none"])
    assert reports.worst(5) == [(Key("a", "2"), 2, 2), (Key("a", "1"), 1, 3)]
    assert reports.worst(1) == [(Key("a", "2"), 2, 2)]
    assert reports.totals() == (4, 3)


def test_few_hosts_are_kept(monkeypatch: pytest.MonkeyPatch) -> None:
    """The one that goes is the one whose last error is the oldest."""
    monkeypatch.setattr(measurements, "MOST_HOSTS", 2)
    reports = Reports()
    for name in ("1", "2", "1", "3"):
        reports.record(Key("a", name), [ERROR], ["r"])
    assert reports.worst(5) == [(Key("a", "1"), 2, 2), (Key("a", "3"), 1, 1)]
    assert reports.totals() == (0, 4)


def test_uploads_by_their_ends() -> None:
    counts = UploadCounts()
    counts.record(UploadEnd.RECEIVED, 10)
    counts.record(UploadEnd.PUT_OFF)
    assert counts.totals() == ({UploadEnd.RECEIVED: 1, UploadEnd.PUT_OFF: 1, UploadEnd.REFUSED: 0}, 10)
