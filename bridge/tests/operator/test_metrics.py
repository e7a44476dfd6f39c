"""The numbers for Prometheus: each against messages that the test sent, who gets them, and what is never in
them. The examples for Prometheus and Grafana name numbers that exist.
"""
import json
import re
import shutil
import subprocess
import time
from pathlib import Path
from typing import Any

import pytest
from bridges import ACCOUNTS, Bridge
from joining import create
from messages import FIRST, jobs, request
from prometheus_client.parser import text_string_to_metric_families
from twin import Twin
from uploading import AGAIN, DATA, DONE, NEVER, sent, tokens_of, upload

from bsched_bridge.people.measurements import BOUNDS, End
from bsched_bridge.uploads.room import NotNow
from bsched_bridge.uploads.store import UploadStore

EXAMPLES = Path(__file__).resolve().parents[3] / "examples" / "monitoring"
PROMTOOL = shutil.which("promtool")
METRIC = re.compile(r"\bbsched_[a-z0-9_]+")
Numbers = dict[tuple[str, str], float]


def text_of(bridge: Bridge, **more: Any) -> str:
    """Returns the answer to Prometheus."""
    status, fields, body = bridge.got("/p/operator/metrics", **more)
    assert (status, fields["Content-Type"]) == ("200 OK", "text/plain; version=0.0.4; charset=utf-8")
    assert fields["Cache-Control"] == "no-store"
    return body.decode()


def numbers_of(bridge: Bridge) -> Numbers:
    """Returns the numbers by their names without `bsched_` and the value of their label."""
    found: Numbers = {}
    for family in text_string_to_metric_families(text_of(bridge)):  # type: ignore[no-untyped-call]
        for sample in family.samples:
            assert len(sample.labels) <= 1 and sample.name.startswith("bsched_")
            name = sample.name.removeprefix("bsched_"), next(iter(sample.labels.values()), "")
            assert name not in found
            found[name] = sample.value
    return found


def ends(bridge: Bridge) -> dict[str, float]:
    """Returns how many calls ended in each way, without those in which none did."""
    numbers = numbers_of(bridge)
    return {end: count for (name, end), count in numbers.items() if name == "bridge_calls_total" and count}


# ---- Numbers


def test_a_new_bridge(bridge: Bridge) -> None:
    before = time.time()
    numbers = numbers_of(bridge)
    assert {end for name, end in numbers if name == "bridge_calls_total"} == {end.value for end in End}
    assert ends(bridge) == {}
    assert numbers["bridge_call_seconds_count", ""] == 0
    assert numbers["scheduler_up", ""] == 1
    assert abs(numbers["bridge_start_time_seconds", ""] - before) < 60
    disk = shutil.disk_usage(bridge.folder)
    assert numbers["bridge_disk_bytes", "state"] == disk.total
    unknown = "uploads_pending|new_accounts|copy|rows|timer|health"
    assert not [name for name, _ in numbers if re.search(unknown, name)]


def test_calls_by_their_ends(bridge: Bridge, twin: Twin) -> None:
    bridge.call(request())
    bridge.call(request(hostid=FIRST, seqno=1, key="ann-key"))
    bridge.call(request(key="nobody", cpid="c2"))
    bridge.call("<scheduler_request>")
    bridge.call("")
    assert bridge.got("/p/cgi", "POST", b"x", CONTENT_LENGTH="")[0] == "411 Length Required"
    assert ends(bridge) == {"answered": 2, "bad_account": 1, "unreadable": 3}
    twin.faults = ['{"error":"hosts_full","number":9}', '{"error":"bad_member","number":8,"member":"x"}']
    bridge.call(request(key="bob-key", cpid="c3"))
    bridge.call(request(key="bob-key", cpid="c3"))
    bridge.application.exchange.barring.bar("bob-key", 0)
    bridge.call(request(key="bob-key", cpid="c3"))
    bridge.application.exchange.barring.delete("bob-key", 0)
    bridge.call(request(key="bob-key", cpid="c3"))
    more = {"hosts_full": 1, "bad_member": 1, "barred": 1, "deleted": 1}
    assert ends(bridge) == {"answered": 2, "bad_account": 1, "unreadable": 3, **more}
    numbers = numbers_of(bridge)
    assert numbers["bridge_call_seconds_count", ""] == numbers["bridge_call_seconds_bucket", "+Inf"] == 10
    buckets = [numbers["bridge_call_seconds_bucket", str(bound)] for bound in BOUNDS]
    assert buckets == sorted(buckets) and numbers["bridge_call_seconds_sum", ""] > 0


def test_calls_without_an_answer(bridge: Bridge, twin: Twin) -> None:
    bridge.call(request())
    twin.faults = ["unheard"] * 3
    bridge.call(request(hostid=FIRST, seqno=1))
    numbers = numbers_of(bridge)
    assert ends(bridge) == {"answered": 1, "no_answer": 1}
    assert numbers["bridge_open_calls", ""] == 1
    bridge.call(request(hostid=FIRST, seqno=2))
    assert numbers_of(bridge)["bridge_open_calls", ""] == 0


def test_a_call_that_finds_no_thread(bridge: Bridge) -> None:
    bridge.application.exchange.scheduler.silent_since = 1.0  # so that it does not wait for one
    for _ in range(bridge.application.settings.threads - 2):
        bridge.application.places._places.acquire()
    bridge.call(request())
    assert ends(bridge) == {"too_busy": 1}


def test_a_call_that_fails(bridge: Bridge, monkeypatch: pytest.MonkeyPatch) -> None:
    def fail(*_args: object) -> None:
        raise ValueError

    monkeypatch.setattr(bridge.application.exchange, "answer", fail)
    assert bridge.got("/p/cgi", "POST", request().encode())[0] == "500 Internal Server Error"
    assert ends(bridge) == {"failed": 1}


def test_reports(bridge: Bridge) -> None:
    names = jobs(bridge.call(request(seconds=120)))
    assert len(names) == 2
    reports = [(name, "1") for name in names]
    bridge.call(request(hostid=FIRST, seqno=1, seconds=0, reports=reports, statuses={names[0]: 3}))
    numbers = numbers_of(bridge)
    assert numbers["bridge_reports_total", "good"] == numbers["bridge_reports_total", "error"] == 1


def test_a_scheduler_that_does_not_answer(bridge: Bridge, twin: Twin) -> None:
    twin.close()
    assert numbers_of(bridge)["scheduler_up", ""] == 0


def test_bsched_is_asked_once_in_a_while(bridge: Bridge, monkeypatch: pytest.MonkeyPatch) -> None:
    monkeypatch.setattr("bsched_bridge.scheduler.probe.KEPT_SECONDS", 600.0)
    scheduler, messages = bridge.application.scheduler, list[object]()
    message = scheduler.message

    def count(*args: Any) -> tuple[int, bytes]:
        messages.append(args)
        return message(*args)

    monkeypatch.setattr(scheduler, "message", count)
    for _ in range(5):
        numbers_of(bridge)
    assert len(messages) == 1


def test_uploads(file_bridge: Bridge, monkeypatch: pytest.MonkeyPatch) -> None:
    tokens = tokens_of(file_bridge.call(request()))
    name, token = next(iter(tokens.items()))
    assert sent(file_bridge, upload(name, DATA, token)) == DONE
    assert sent(file_bridge, upload(name, DATA, "0" * 64)) == NEVER

    def refuse(*_args: object) -> None:
        raise NotNow("full")

    monkeypatch.setattr(UploadStore, "receive", refuse)
    assert sent(file_bridge, upload(name, DATA, token)) == AGAIN
    numbers = numbers_of(file_bridge)
    assert [numbers["bridge_uploads_total", end] for end in ("received", "put_off", "refused")] == [1, 1, 1]
    assert numbers["bridge_upload_bytes_total", ""] == len(DATA)
    assert numbers["bridge_uploads_pending", ""] == 1
    assert numbers["bridge_uploads_used_bytes", ""] == len(DATA)
    assert numbers["bridge_uploads_limit_bytes", ""] == 1_000_000
    assert numbers["bridge_uploads_largest_account_bytes", ""] == len(DATA)
    assert numbers["bridge_uploads_account_limit_bytes", ""] == 100_000
    assert numbers["bridge_digests_waiting", ""] == 0
    assert numbers["bridge_disk_bytes", "uploads"] > 0


def test_accounts(open_bridge: Bridge, twin: Twin) -> None:
    assert len(create(open_bridge)) == 32
    numbers = numbers_of(open_bridge)
    assert numbers["bridge_new_accounts", ""] == 1 and numbers["bridge_new_accounts_limit", ""] == 50
    assert numbers["bridge_open_imports", ""] == 0
    twin.import_faults = ["unheard"] * 9
    create(open_bridge, "bob@sums.example")
    assert numbers_of(open_bridge)["bridge_open_imports", ""] == 1


# ---- What others write


def test_what_the_tools_wrote(full_bridge: Bridge) -> None:
    numbers = numbers_of(full_bridge)
    assert {check: level for (name, check), level in numbers.items() if name == "health_level"} == {
        "disk": 2,
        "tick": 1,
    }
    assert numbers["health_timestamp_seconds", ""] == 1_000
    assert numbers["copy_timestamp_seconds", ""] == 900
    assert numbers["oldest_copy_timestamp_seconds", ""] == 400
    assert {(kind, of): count for (kind, of), count in numbers.items() if kind.startswith("rows")} == {
        ("rows", "hosts"): 3,
        ("rows_limit", "hosts"): 100,
    }
    assert {name: at for (kind, name), at in numbers.items() if kind == "timer_timestamp_seconds"} == {
        "tick": 700,
        "copy": 600,
    }


@pytest.mark.parametrize(
    "text",
    [
        "",
        "[]",
        "{",
        "[" * 100_000,
        '{"moment": -1}',
        '{"moment": true}',
        '{"moment": 1e400}',
        '{"moment": 5, "findings": 7, "copies": 8}',
        '{"moment": 5, "findings": [7, {"check": 1, "level": "good"}], "copies": {"newest": "x"}}',
        '{"moment": 5, "findings": [{"check": "disk", "level": "odd", "text": ""}]}',
        '{"limits": {"hosts": {"used": -1, "most": 5}, "apps": {"used": 1, "most": 0}, "accounts": 5}}',
    ],
)
def test_files_of_the_tools_with_faults(full_bridge: Bridge, text: str) -> None:
    for name in ("findings.json", "counts.json"):
        (full_bridge.folder / "units" / name).write_text(text)
    names = {name for name, _ in numbers_of(full_bridge)}
    assert "bridge_open_calls" in names
    assert not names & {"health_level", "copy_timestamp_seconds", "rows", "rows_limit"}


def test_a_long_file_of_findings(full_bridge: Bridge) -> None:
    """Its checks become labels, so there are at most 50."""
    found = [{"check": f"c{number}", "level": "good", "text": ""} for number in range(1000)]
    path = full_bridge.folder / "units" / "findings.json"
    path.write_text(json.dumps({"moment": 5, "findings": found}))
    assert sum(name == "health_level" for name, _ in numbers_of(full_bridge)) == 50


# ---- Who gets them, and what is not in them


def test_who_gets_them(open_bridge: Bridge) -> None:
    for address in ("127.0.0.1", "127.8.8.8", "::1", ""):
        text_of(open_bridge, REMOTE_ADDR=address)
    assert open_bridge.got("/p/operator/metrics", REMOTE_ADDR="198.51.100.7")[0] == "404 Not Found"
    for field in ("X_REAL_IP", "X_FORWARDED_FOR", "FORWARDED", "VIA", "X_FORWARDED_HOST"):
        more: dict[str, Any] = {"REMOTE_ADDR": "127.0.0.1", f"HTTP_{field}": "127.0.0.1"}
        assert open_bridge.got("/p/operator/metrics", **more)[0] == "404 Not Found"
    assert open_bridge.got("/p/operator/metrics", "POST")[0] == "405 Method Not Allowed"
    assert open_bridge.got("/p/metrics")[0] == open_bridge.got("/p/operator/")[0] == "404 Not Found"


def test_a_proxy_with_a_field_of_its_own(project: Path, bridge: Bridge) -> None:
    with (project / "bridge.toml").open("a") as file:
        file.write(ACCOUNTS + 'address_field = "X-Client"\n')
    bridge.restart()
    assert bridge.got("/p/operator/metrics", HTTP_X_CLIENT="")[0] == "404 Not Found"
    text_of(bridge)


def test_one_at_a_time(bridge: Bridge, monkeypatch: pytest.MonkeyPatch) -> None:
    statuses: list[str] = []
    looked = bridge.file.looked

    def look(*args: Any) -> Any:
        monkeypatch.setattr(bridge.file, "looked", looked)
        statuses.append(bridge.got("/p/operator/metrics")[0])
        return looked(*args)

    monkeypatch.setattr(bridge.file, "looked", look)
    text_of(bridge)
    assert statuses == ["503 Service Unavailable"]
    text_of(bridge)


def test_nothing_of_a_volunteer(full_bridge: Bridge) -> None:
    key = create(full_bridge, "carl@sums.example", name="Carl")
    full_bridge.call(request(key=key, cpid="secret-cpid"))
    names = jobs(full_bridge.call(request(key="ann-key", cpid="c9")))
    full_bridge.call(request(FIRST + 1, "c9", "ann-key", reports=[(names[0], "")], statuses={names[0]: 9}))
    text = text_of(full_bridge)
    assert 'bsched_bridge_reports_total{outcome="error"} 1.0' in text
    for word in (key, "carl", "Carl", "secret-cpid", "ann-key", "Ann", "change-this-key", "c9"):
        assert word not in text
    assert re.search(rf"\b{FIRST}\b", text) is None  # the digits of a time can hold these


# ---- The examples


def named_in(path: Path) -> set[str]:
    """Returns the numbers that an example names."""
    return set(METRIC.findall(path.read_text()))


def test_the_examples_name_numbers_that_exist(full_bridge: Bridge) -> None:
    exported = {f"bsched_{name}" for name, _ in numbers_of(full_bridge)}
    dashboard = json.loads((EXAMPLES / "dashboard.json").read_text())
    shown = {
        name
        for panel in dashboard["panels"]
        for target in panel.get("targets", [])
        for name in METRIC.findall(target["expr"])
    }
    assert len(shown) > 10 and shown <= exported
    rules = named_in(EXAMPLES / "rules.yml")
    assert len(rules) > 12 and rules <= exported
    assert named_in(EXAMPLES / "rules_test.yml") <= exported


def test_each_value_of_a_label_in_the_rules_exists(full_bridge: Bridge) -> None:
    """A mistyped value would make an alert that never fires."""
    found = numbers_of(full_bridge)
    text = (EXAMPLES / "rules.yml").read_text()
    used = re.findall(r'bsched_(\w+)\{(?:end|why|outcome)=~?"([^"]*)"\}', text)
    assert len(used) > 4
    for name, values in used:
        assert {value for value in values.split("|") if (name, value) not in found} == set()


def test_the_alerts() -> None:
    rules = (EXAMPLES / "rules.yml").read_text()
    alerts = re.findall("- alert: (.*)", rules)
    later = ["BschedCatalogue", "BschedReportsWait", "BschedUploadsFill", "BschedStuck"]
    pair = ["BschedOneCopy", "BschedReplicaDown"]
    assert alerts == ["BschedDown", "BschedDisk", "BschedNoCopy", "BschedErrorsRise", *later, *pair]
    tests = (EXAMPLES / "rules_test.yml").read_text()
    for alert in alerts:  # each fires in a test, and does not fire in one
        shown = re.findall(rf"alertname: {alert}\n +exp_alerts: ?(.*)", tests)
        assert "[]" in shown and "" in shown


@pytest.mark.skipif(PROMTOOL is None, reason="promtool is not installed")
@pytest.mark.parametrize("words", [("check", "rules", "rules.yml"), ("test", "rules", "rules_test.yml")])
def test_the_rules_by_promtool(words: tuple[str, ...]) -> None:
    command = [PROMTOOL or "", *words]
    completed = subprocess.run(command, cwd=EXAMPLES, capture_output=True, text=True, timeout=120)
    assert completed.returncode == 0, completed.stdout + completed.stderr


@pytest.mark.skipif(PROMTOOL is None, reason="promtool is not installed")
def test_the_text_by_promtool(full_bridge: Bridge) -> None:
    """promtool looks for faults in the text and for odd names."""
    command = [PROMTOOL or "", "check", "metrics"]
    text = text_of(full_bridge)
    completed = subprocess.run(command, input=text, capture_output=True, text=True, timeout=120)
    assert completed.returncode == 0, completed.stdout + completed.stderr
