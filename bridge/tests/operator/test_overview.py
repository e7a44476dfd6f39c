"""All that is known at one moment, as the board shows it."""
import re
from datetime import datetime, timezone

import pytest
from boards import cells, facts, row, sent
from bridges import Bridge
from messages import FIRST, jobs, request
from pages_seen import page_of
from twin import Twin


def test_calls_and_reports(bridge: Bridge) -> None:
    names = jobs(bridge.call(request(seconds=120)))
    reports = [(name, "1") for name in names]
    bridge.call(request(hostid=FIRST, seqno=1, seconds=0, reports=reports, statuses={names[0]: 7}))
    bridge.call(request(key="nobody", cpid="c2"))
    answer = sent(bridge)
    # within the first minute three calls are three a minute
    assert row(answer, "answered by the scheduler") == ["2.0", "2.0", "2"]
    assert row(answer, "unknown account key") == ["1.0", "1.0", "1"]
    assert not [one for one in cells(answer) if one[0] == "barred account"]
    found = facts(answer)
    assert (found["calls since the start"], found["open calls"]) == ("3", "0")
    assert (found["good results reported"], found["errors reported"]) == ("1", "1")
    assert re.fullmatch(r"[0-9.]+ m?s", found["median of an answer, last hour"])
    assert row(answer, str(FIRST)) == ["Ann", "ann..", "1", "2", "0", "any", row(answer, str(FIRST))[-1]]


def test_a_bridge_that_knows_little(bridge: Bridge) -> None:
    answer = sent(bridge)
    text = page_of(answer, has_key=True).text
    assert row(answer, "scheduler")[0] == row(answer, "bridge")[0] == "good"
    assert row(answer, "timers")[0] == "unknown"
    assert "Nothing is known: bsched-tools health writes it" in text and "No copy is known." in text
    assert "Of the tables nothing is known" in text and "Uploads" not in text
    assert "bsched-tools copy --tables TABLES --to FOLDER" in text
    assert "No computer has reported an error" in text


def test_a_bridge_with_everything(full_bridge: Bridge, monkeypatch: pytest.MonkeyPatch) -> None:
    moment = datetime(1970, 1, 1, 1, 0, tzinfo=timezone.utc).timestamp()
    monkeypatch.setattr("bsched_bridge.operator.overview.time.time", lambda: moment)
    answer = sent(full_bridge)
    text = page_of(answer, has_key=True).text
    assert row(answer, "timer of tick") == [
        "warning",
        "elapsed 48 minutes ago: systemctl status bsched-tick@sums.timer",
    ]
    assert row(answer, "timer of copy") == ["good", "elapsed 50 minutes ago"]
    assert row(answer, "timer of health")[0] == "warning"
    assert row(answer, "timer of sweep") == [
        "unknown",
        "it never elapsed: systemctl enable --now bsched-sweep@sums.timer",
    ]
    assert "By bsched-tools health, at 1970-01-01 00:16:40 UTC." in text
    assert row(answer, "disk") == ["good", "much"] and "little is <free>" in text
    assert row(answer, "hosts") == ["3", "100", "97", "3"]
    assert row(answer, "new accounts in 24 hours") == ["0", "50", "50", "0"]
    assert row(answer, "uploaded files") == ["0.0 GB", "0.0 GB", "0.0 GB", "0"]
    found = facts(answer)
    assert (found["newest (UTC)"], found["oldest (UTC)"]) == ("1970-01-01 00:15:00", "1970-01-01 00:06:40")
    assert (found["copies"], found["files received"]) == ("2", "0")
    assert "systemctl start bsched-copy@sums.service" in text


def test_a_scheduler_that_does_not_answer(bridge: Bridge, twin: Twin) -> None:
    twin.close()
    state, text = row(sent(bridge), "scheduler")
    assert state == "critical" and text.startswith("gives no answer since ") and "refused" in text
