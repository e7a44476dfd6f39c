"""Credit by days."""
import pytest
from bridges import Bridge
from many_people import reply
from messages import FIRST
from pages_seen import page_of

from bsched_bridge.people.credit_days import CreditDay, CreditDays
from bsched_bridge.people.hosts import Key
from bsched_files.moments import DAY

TODAY = 20_000


def days_lived(bridge: Bridge, monkeypatch: pytest.MonkeyPatch, days: list[tuple[int, int, int]]) -> None:
    """Lets a host have replies on some days, with credit of its user and of its own."""
    states, key = bridge.states, Key("ann-key", "c1")
    for day, user, host in days:
        monkeypatch.setattr("time.time", lambda day=day: float(day * DAY + 10))
        opened = states.open(states.begin(key), lambda _number: b"{}")
        states.answered(opened, reply(1, user, host), [])
        states.give_hostid(key)


def test_a_day_has_one_row(bridge: Bridge, monkeypatch: pytest.MonkeyPatch) -> None:
    days = [(TODAY, 1, 1), (TODAY + 1, 5, 2), (TODAY + 1, 7, 3), (TODAY + 4, 7, 3)]
    days_lived(bridge, monkeypatch, days)
    kept = CreditDays(bridge.file)
    # the first reply comes before the client gets its number
    assert kept.of_host(FIRST) == [CreditDay(TODAY + 1, 3), CreditDay(TODAY + 4, 3)]
    assert kept.of_member(1) == [CreditDay(TODAY, 1), CreditDay(TODAY + 1, 7), CreditDay(TODAY + 4, 7)]
    page = page_of(bridge.got("/p/user/1"))
    assert "Credit from 2024-10-04 to 2024-10-08: from 0.001 to 0.007." in page.text
    assert [tag for tag, _ in page.tags].count("polyline") == 1
    assert "Credit from 2024-10-05 to 2024-10-08" in page_of(bridge.got(f"/p/computer/{FIRST}")).text


def test_the_days_are_bounded(bridge: Bridge, monkeypatch: pytest.MonkeyPatch) -> None:
    days_lived(bridge, monkeypatch, [(TODAY + day, day, day) for day in range(400)])
    kept = CreditDays(bridge.file)
    assert [one.day for one in kept.of_host(FIRST)] == list(range(TODAY + 340, TODAY + 400))
    assert [one.day for one in kept.of_member(1)] == list(range(TODAY + 34, TODAY + 400))
    # a clock that was ahead leaves nothing
    days_lived(bridge, monkeypatch, [(TODAY + 9000, 401, 401), (TODAY + 400, 402, 402)])
    assert kept.of_host(FIRST) == [CreditDay(TODAY + 400, 402)]
    assert "Table of the chart" not in page_of(bridge.got(f"/p/computer/{FIRST}")).text
