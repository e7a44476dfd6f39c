"""The numbers of the bridge and of the project for Prometheus, in its text form.

A label has one of a few values, which this package fixes or the operator's own tools wrote. No name, address
or key of a volunteer is among the numbers.
"""
from collections.abc import Iterator, Mapping

from prometheus_client import CONTENT_TYPE_LATEST, CollectorRegistry, generate_latest
from prometheus_client.core import CounterMetricFamily, GaugeMetricFamily, HistogramMetricFamily
from prometheus_client.metrics_core import Metric
from prometheus_client.registry import Collector
from werkzeug.exceptions import ServiceUnavailable
from werkzeug.wrappers import Request, Response

from ..common.http_messages import NO_STORE, answer
from ..common.limits import NoPlace, Places
from ..people.measurements import BOUNDS, End, Measurements
from .overview import Overview, Overviews


def gauge(name: str, text: str, value: float | None) -> Iterator[Metric]:
    """Yields a gauge, or nothing if its value is not known."""
    if value is not None:
        yield GaugeMetricFamily(f"bsched_{name}", text, value)


def labelled(name: str, text: str, label: str, values: Mapping[str, float]) -> Iterator[Metric]:
    """Yields a gauge with a sample for each value of a label."""
    family = GaugeMetricFamily(f"bsched_{name}", text, labels=[label])
    for value, number in values.items():
        family.add_metric([value], number)
    yield family


def counter(name: str, text: str, label: str, values: Mapping[str, float]) -> Metric:
    """Returns a counter with a sample for each value of a label."""
    family = CounterMetricFamily(f"bsched_bridge_{name}", text, labels=[label])
    for value, number in values.items():
        family.add_metric([value], number)
    return family


def measured(measurements: Measurements) -> Iterator[Metric]:
    """Yields what the bridge measured since its start."""
    calls, (good, errors) = measurements.calls.all(), measurements.reports.totals()
    uploads, nbytes = measurements.uploads.totals()
    ends = {end.value: calls.ends[end] for end in End}
    yield counter("calls", "Calls of clients by how they ended.", "end", ends)
    buckets: list[tuple[str, float]] = []
    below = 0
    for bound, count in zip([*map(str, BOUNDS), "+Inf"], calls.bins):
        below += count
        buckets.append((bound, below))
    text = "How long the answers to calls took."
    yield HistogramMetricFamily("bsched_bridge_call_seconds", text, buckets, calls.seconds)
    results = {"good": good, "error": errors}
    yield counter("reports", "Reported results, without an error and with one.", "outcome", results)
    files = {end.value: count for end, count in uploads.items()}
    yield counter("uploads", "Uploads by how they ended.", "end", files)
    yield CounterMetricFamily("bsched_bridge_upload_bytes", "The bytes of files that were received.", nbytes)
    put_off = {why.value: count for why, count in measurements.put_offs.totals().items()}
    yield counter("reports_put_off", "Reports that their clients send again, by the reason.", "why", put_off)
    yield from gauge("bridge_start_time_seconds", "When the bridge started.", measurements.started_at)


def of_bridge(overview: Overview) -> Iterator[Metric]:
    """Yields what the bridge itself knows at one moment."""
    answers = float(overview.scheduler.is_answered)
    yield from gauge("scheduler_up", "Whether the scheduler answers the bridge.", answers)
    yield from gauge("bridge_open_calls", "Calls that have no answer yet.", overview.open_calls)
    yield from gauge("bridge_open_imports", "Accounts whose import has no answer yet.", overview.open_imports)
    free = {name: disk.free for name, disk in overview.disks.items()}
    total = {name: disk.total for name, disk in overview.disks.items()}
    yield from labelled("bridge_disk_free_bytes", "Free room of the disk of a folder.", "folder", free)
    yield from labelled("bridge_disk_bytes", "The size of the disk of a folder.", "folder", total)
    if overview.uploads is not None:
        pending, room, largest = overview.uploads.pending, overview.uploads.room, overview.uploads.largest
        yield from gauge("bridge_uploads_pending", "Files whose results are not reported yet.", pending)
        yield from gauge("bridge_uploads_used_bytes", "The bytes of all uploaded files.", room.used)
        yield from gauge("bridge_uploads_limit_bytes", "How many bytes they may have.", room.most)
        text = "The bytes of files that are not reported, of the account that has most."
        yield from gauge("bridge_uploads_largest_account_bytes", text, largest.used)
        yield from gauge("bridge_uploads_account_limit_bytes", "How many an account may have.", largest.most)
    text = "Results that wait for their digest program."
    yield from gauge("bridge_digests_waiting", text, overview.digests_waiting)
    text = "Computers that get fewer jobs, since they reported errors."
    yield from gauge("bridge_held_back_hosts", text, overview.held_back)
    good = float(overview.faults.edit is None)
    yield from gauge("bridge_catalogue_good", "Whether the last edit of the catalogue counts.", good)
    faulty = float(len(overview.faults.digests))
    yield from gauge("bridge_faulty_digest_programs", "Digest programs that failed their check.", faulty)
    if (accounts := overview.new_accounts) is not None:
        text = "Accounts that volunteers made in 24 hours."
        yield from gauge("bridge_new_accounts", text, accounts.used)
        yield from gauge("bridge_new_accounts_limit", "How many they may make.", accounts.most)


def of_tools(overview: Overview) -> Iterator[Metric]:
    """Yields what the tools left for the bridge, as far as it is known."""
    elapsed = {timer.name: timer.last for timer in overview.timers if timer.last is not None}
    yield from labelled("timer_timestamp_seconds", "When a timer of systemd elapsed last.", "timer", elapsed)
    used = {name: limit.used for name, limit in overview.limits.items()}
    most = {name: limit.most for name, limit in overview.limits.items()}
    yield from labelled("rows", "Rows of the tables.", "of", used)
    yield from labelled("rows_limit", "How many rows there may be.", "of", most)
    if (found := overview.findings) is not None:
        levels: dict[str, float] = {}
        for finding in found.findings:  # a check may have several findings: the greatest number counts
            levels[finding.check] = max(levels.get(finding.check, 0), int(finding.level))
        text = "0 good, 1 warning, 2 critical, 3 unknown."
        yield from labelled("health_level", text, "check", levels)
        yield from gauge("health_timestamp_seconds", "When health was looked at last.", found.moment)
        yield from gauge("copy_timestamp_seconds", "When the newest copy was taken.", found.newest_copy)
        yield from gauge("oldest_copy_timestamp_seconds", "When the oldest one was.", found.oldest_copy)


class Metrics(Collector):
    """Answers Prometheus. One message at a time is answered."""

    def __init__(self, overviews: Overviews) -> None:
        self.overviews, self._places = overviews, Places(1)
        self._registry = CollectorRegistry()
        self._registry.register(self)

    def collect(self) -> Iterator[Metric]:
        """Yields all numbers."""
        yield from measured(self.overviews.measurements)
        overview = self.overviews.read()
        yield from of_bridge(overview)
        yield from of_tools(overview)

    def answer(self, _message: Request) -> Response:
        """Returns all numbers."""
        try:
            with self._places.taken():
                return answer(CONTENT_TYPE_LATEST, generate_latest(self._registry), NO_STORE)
        except NoPlace:
            raise ServiceUnavailable from None
