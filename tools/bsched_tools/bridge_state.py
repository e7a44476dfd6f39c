"""What the bridge that serves says of itself: whether the last edit of the catalogue counts, which digest
programs fail, and whether uploads have room.
"""
import http.client
import time
from collections.abc import Iterator
from urllib.parse import urlsplit

from bsched_files.faults import Fault
from bsched_files.findings import PUT_OFF_SECONDS, Finding, Level
from bsched_files.operator_state import KEY_FIELD, PATH, OperatorState, PutOffReport, UploadRoom, read_state

from .amounts import bytes_text
from .answers import answer_of
from .projects import Project, UnitSettings

NEARLY = 0.9  # of most_bytes: more is a warning


def catalogue(project: Project, _settings: UnitSettings) -> Iterator[Finding]:
    """Asks the bridge, also about uploads. Without an operator's key it does not say. That it gives no
    answer is a finding of the check of the bridge.
    """
    bridge = project.bridge
    if bridge is None or not bridge.has_operator_key:
        return
    port = project.port("BRIDGE_PORT")
    place = f"http://127.0.0.1:{port}{urlsplit(bridge.url).path}{PATH}"
    try:
        status, body = answer_of(place, {KEY_FIELD: project.operator_key})
    except (OSError, http.client.HTTPException):
        return
    again = f"`systemctl restart bsched-bridge@{project.name}`"
    if status == 200:
        yield from of_state(project, body, again)
    elif status == 403:
        what = "the bridge refuses operator_key of settings.toml: write that into bridge.toml"
        yield Finding("catalogue", Level.WARNING, f"{what}, then {again}")
    else:
        text = f"what has port {port} does not say (status {status}); if it is an older bridge: {again}"
        yield Finding("catalogue", Level.UNKNOWN, text)


def of_state(project: Project, body: bytes, again: str) -> Iterator[Finding]:
    """Yields what is wrong with what a bridge says of itself."""
    try:
        state = read_state(body)
    except Fault as fault:
        yield Finding(
            "catalogue", Level.UNKNOWN, f"the bridge does not say whether its last edit counts: {fault}"
        )
        return
    yield from of_catalogue(project, state, again)
    if state.put_off is not None:
        yield from of_reports(project, state.put_off)
    if state.uploads is not None:
        yield from of_uploads(project, state.uploads, again)


def of_catalogue(project: Project, state: OperatorState, again: str) -> Iterator[Finding]:
    """Yields what is wrong with the catalogue and its digest programs."""
    if state.edit is not None:
        says = f"`journalctl -u bsched-bridge@{project.name}` says when it counts"
        text = f"its last edit does not count, and it stays as it was: {state.edit}: correct it; {says}"
        yield Finding("catalogue", Level.CRITICAL, text)
    for app, fault in sorted(state.digests.items()):
        text = f"the digest program of {app} fails, and its reports wait: {fault}: correct it, then {again}"
        yield Finding("catalogue", Level.CRITICAL, text)
    if state.edit is None and not state.digests:
        yield Finding("catalogue", Level.GOOD, "its last edit counts")


def of_reports(project: Project, put_off: PutOffReport) -> Iterator[Finding]:
    """Yields why a report was put off within the last hour, apart from those that wait for their turn."""
    seconds = time.time() - put_off.moment
    if seconds < PUT_OFF_SECONDS:
        minutes = max(0.0, seconds) / 60
        advice = f"`journalctl -u bsched-bridge@{project.name}` has more"
        yield Finding(
            "reports", Level.WARNING, f"put off {minutes:.0f} minutes ago: {put_off.text}: {advice}"
        )


def of_uploads(project: Project, room: UploadRoom, again: str) -> Iterator[Finding]:
    """Yields how much room uploads have, in their folder and on its disk."""
    used, most, coming = room.used, room.most_bytes, room.coming
    free, left = room.disk_free, room.free_bytes
    share = f"{bytes_text(used)} of {bytes_text(most)} (most_bytes) are used"
    raise_it = f"raise most_bytes in bridge.toml, then {again}"
    disk = f"the disk has {bytes_text(free)} free, and uploads leave {bytes_text(left)} (free_bytes)"
    shrink = f"free room, or lower free_bytes in bridge.toml, then {again}"
    listed = f"`bsched-bridge uploads --project {project.name}` lists what is not reported"
    may_bring = f"the jobs that are out may bring {bytes_text(coming)}"
    if used >= most:
        yield Finding("uploads", Level.CRITICAL, f"{share}, so clients wait: {raise_it}; {listed}")
    elif free <= left:
        yield Finding("uploads", Level.CRITICAL, f"{disk}, so clients wait: {shrink}")
    elif free - left < coming:
        yield Finding("uploads", Level.WARNING, f"{disk}; {may_bring}: {shrink}")
    elif used >= NEARLY * most or most - used < coming:
        yield Finding("uploads", Level.WARNING, f"{share}; {may_bring}: {raise_it}; {listed}")
    else:
        yield Finding("uploads", Level.GOOD, share)
