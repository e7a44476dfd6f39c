"""Whether a project is well: what answers, how old the newest copy is, and what is nearly full."""
import http.client
import shutil
import socket
import ssl
import time
from collections.abc import Callable, Iterable, Iterator
from pathlib import Path
from urllib.parse import urlsplit

from bsched_files.atomic import keep_file
from bsched_files.copies import copies_in, moment_of
from bsched_files.counts import NO_HOST
from bsched_files.faults import Fault
from bsched_files.findings import NAME as FINDINGS, Finding, Findings, Level
from bsched_files.moments import DAY, HOUR, MINUTE
from bsched_files.programs import run
from bsched_files.tables import opened
from bsched_files.timers import elapsed_at

from .amounts import count_text
from .answers import SECONDS, answer_of, reason_of
from .bridge_state import catalogue
from .comparing import compared
from .computers import bad_computers
from .computers import named as named_computers
from .counts import counted
from .projects import Project, UnitSettings
from .replica import replica
from .stuck import named, stuck_in

CERTIFICATE_DAYS = 14, 3  # fewer days are a warning, and critical
FREE_SHARE = 0.1, 0.03  # of a disk: less is a warning, and critical
USED_SHARE = 0.9, 1.0  # of a limit: more is a warning, and critical
TICK_MINUTES = 12, 30  # since the last tick: more is a warning, and critical; one is sent each five minutes
MOST_SPOILED = 5  # files that are named
COPY_SECONDS = 2 * HOUR  # since the timer of copies was enabled or elapsed last; it elapses each hour
COPIES_LATE = 8  # times the hours of the settings: an older copy is critical


Check = Callable[[Project, UnitSettings], Iterator[Finding]]


def scheduler(project: Project, _settings: UnitSettings) -> Iterator[Finding]:
    """Asks the scheduler with the operator's key for a computer that does not exist."""
    port, began = project.port(), time.monotonic()
    try:
        fields = {"x-operator-key": project.operator_key}
        status, body = answer_of(f"http://127.0.0.1:{port}/hosts/{NO_HOST}", fields)
    except (OSError, http.client.HTTPException) as error:
        text = f"port {port} gives no answer ({reason_of(error)}): `systemctl status bsched@{project.name}`"
        yield Finding("scheduler", Level.CRITICAL, text)
        return
    took = f"{1000 * (time.monotonic() - began):.0f} ms"
    if status == 403:
        text = f"what has port {port} refuses the operator's key: it is another project's, or the key changed"
        yield Finding("scheduler", Level.CRITICAL, text)
    elif status == 404 and b"no_such_host" in body:
        yield Finding("scheduler", Level.GOOD, f"port {port} answers in {took}")
    else:
        yield Finding("scheduler", Level.CRITICAL, f"port {port} answers with status {status}")


def bridge(project: Project, _settings: UnitSettings) -> Iterator[Finding]:
    """Asks the bridge what a client asks before it joins, and then at the URL, as a client does."""
    url = project.url
    if url is None:
        return
    port, path = project.port("BRIDGE_PORT"), urlsplit(url).path
    unit = f"`systemctl status bsched-bridge@{project.name}`"
    yield asked("bridge", f"http://127.0.0.1:{port}{path}", url, f"port {port}", unit)
    yield asked("url", url, url, url, "see whether the name leads here, and what nginx logs")


def asked(check: str, place: str, url: str, name: str, advice: str) -> Finding:
    """Asks for the project's configuration at a place. It must have the project's URL."""
    try:
        status, body = answer_of(f"{place}get_project_config.php")
    except (OSError, http.client.HTTPException) as error:
        return Finding(check, Level.CRITICAL, f"{name} gives no answer ({reason_of(error)}): {advice}")
    if status != 200:
        return Finding(check, Level.CRITICAL, f"{name} answers with status {status}: {advice}")
    if f"<master_url>{url}</master_url>".encode() not in body:
        return Finding(check, Level.CRITICAL, f"{name} answers, and is not this project: {advice}")
    return Finding(check, Level.GOOD, f"{name} answers")


def certificate(project: Project, _settings: UnitSettings) -> Iterator[Finding]:
    """Looks at how long the certificate of the URL is valid."""
    parts = urlsplit(project.url or "")
    if parts.scheme != "https" or parts.hostname is None:
        return
    try:
        with socket.create_connection((parts.hostname, parts.port or 443), SECONDS) as made:
            context = ssl.create_default_context()
            with context.wrap_socket(made, server_hostname=parts.hostname) as tls:
                fields = tls.getpeercert() or {}
    except OSError as error:
        yield Finding("certificate", Level.CRITICAL, f"{parts.hostname}: {reason_of(error)}")
        return
    days = int((ssl.cert_time_to_seconds(str(fields["notAfter"])) - time.time()) // DAY)
    level = level_of(-days, -CERTIFICATE_DAYS[0], -CERTIFICATE_DAYS[1])
    yield Finding("certificate", level, f"that of {parts.hostname} is valid for {days} days")


def tick(project: Project, _settings: UnitSettings) -> Iterator[Finding]:
    """Asks systemd whether the timer of the tick waits, and whether the last tick was answered. A user whom
    systemd does not answer looks when the timer last sent one."""
    name = f"bsched-tick@{project.name}"
    timer = shown_by_systemd(f"{name}.timer", "ActiveState")
    result = shown_by_systemd(f"{name}.service", "Result")
    if timer is None or result is None:
        yield last_tick(name)
    elif timer != "active":
        text = f"{name}.timer is {timer}, so deadlines don't pass: `systemctl enable --now {name}.timer`"
        yield Finding("tick", Level.CRITICAL, text)
    elif result != "success":
        text = f"the last one failed ({result}): `journalctl -u {name}`"
        yield Finding("tick", Level.WARNING, text)
    else:
        yield Finding("tick", Level.GOOD, "the timer waits, and the last tick was answered")


def last_tick(name: str) -> Finding:
    """Looks when the timer of the tick last sent one, by the file that systemd keeps of the timer."""
    last = elapsed_at(name)
    if last is None:
        return Finding("tick", Level.UNKNOWN, f"systemd does not say whether {name}.timer runs: ask as root")
    minutes = (time.time() - last) / MINUTE
    level = level_of(minutes, *TICK_MINUTES)
    ends = "" if level is Level.GOOD else f": `systemctl enable --now {name}.timer`"
    return Finding("tick", level, f"the last one was sent {minutes:.0f} minutes ago{ends}")


def shown_by_systemd(unit: str, key: str) -> str | None:
    """Returns what systemd says about a unit; None if it can't be asked."""
    command = ["systemctl", "show", "--value", f"--property={key}", unit]
    try:
        completed = run(command, SECONDS)
    except Fault:
        return None
    return completed.stdout.strip() if completed.returncode == 0 else None


def copies_of(project: Project, settings: UnitSettings) -> list[Path]:
    """Returns the copies of the tables, the newest one first."""
    return copies_in(settings.copies, project.tables.stem) if settings.copies.is_dir() else []


def newest_copy(project: Project, settings: UnitSettings) -> Path | None:
    """Returns the newest copy of the tables."""
    return next(iter(copies_of(project, settings)), None)


def is_copying(unit: str) -> bool:
    """Returns whether the timer of copies waits. If systemd does not answer, a file of systemd says when the
    timer was enabled or elapsed last.
    """
    state = shown_by_systemd(f"{unit}.timer", "ActiveState")
    if state is not None:
        return state == "active"
    last = elapsed_at(unit)
    return last is not None and time.time() - last < COPY_SECONDS


def copy(project: Project, settings: UnitSettings) -> Iterator[Finding]:
    """Looks at the age of the newest copy."""
    unit = f"bsched-copy@{project.name}"
    advice = f"`systemctl enable --now {unit}.timer`"
    if is_copying(unit):
        advice = f"`systemctl start {unit}` makes one now"
    newest = newest_copy(project, settings)
    if newest is None:
        yield Finding("copy", Level.CRITICAL, f"there is none in {settings.copies}: {advice}")
        return
    hours = (time.time() - moment_of(newest)) / HOUR
    level = level_of(hours, settings.copy_hours, COPIES_LATE * settings.copy_hours)
    ends = "" if level is Level.GOOD else f": {advice}, or read its log: `journalctl -u {unit}`"
    yield Finding("copy", level, f"the newest one is {hours:.1f} hours old{ends}")


def limits(project: Project, settings: UnitSettings) -> Iterator[Finding]:
    """Looks at how full the tables are, in the newest copy."""
    newest = newest_copy(project, settings)
    if newest is None:
        return
    counts = counted([newest])
    for name, limit in counts.limits.items():
        share = limit.used / limit.most
        level = level_of(share, *USED_SHARE)
        if level is not Level.GOOD:
            advice = 'see "Limits" in docs/WHEN_WRONG.md'
            yield Finding("limits", level, f"{limit.used} of {limit.most} {name} are used: {advice}")
            return
    name, limit = max(counts.limits.items(), key=lambda item: item[1].used / item[1].most)
    yield Finding("limits", Level.GOOD, f"at most {100 * limit.used // limit.most} % are used ({name})")


def work(project: Project, settings: UnitSettings) -> Iterator[Finding]:
    """Looks for stuck workunits and bad computers, in the newest copy."""
    newest = newest_copy(project, settings)
    if newest is None:
        return
    with opened(newest) as tables:
        stuck, computers = list(stuck_in(tables)), bad_computers(tables)
    if stuck:
        yield Finding("stuck", Level.WARNING, f"{count_text(len(stuck), 'workunit')}: {named(stuck)}")
    if computers:
        text = f"most results of the last day are bad: {named_computers(computers)}"
        yield Finding("computers", Level.WARNING, text)


def spoiled(project: Project, settings: UnitSettings) -> Iterator[Finding]:
    """Compares a part of the bridge's files with what they should be."""
    found = list(compared(project, newest_copy(project, settings), int(time.time())))
    for text in found[:MOST_SPOILED]:
        yield Finding("spoiled", Level.CRITICAL, text)
    if more := len(found[MOST_SPOILED:]):
        yield Finding("spoiled", Level.CRITICAL, f"and {count_text(more, 'further file')}")


def disk(project: Project, settings: UnitSettings) -> Iterator[Finding]:
    """Looks at the free room of the disks of the project and its copies."""
    seen = set()
    for folder in (project.folder, settings.copies):
        if not folder.is_dir() or folder.stat().st_dev in seen:
            continue
        seen.add(folder.stat().st_dev)
        usage = shutil.disk_usage(folder)
        level = level_of(-usage.free / usage.total, -FREE_SHARE[0], -FREE_SHARE[1])
        text = f"{usage.free / 1e9:.1f} GB of {usage.total / 1e9:.1f} GB are free in {folder}"
        yield Finding("disk", level, text)


def level_of(value: float, warning: float, critical: float) -> Level:
    """Returns the level of a value that should be small."""
    return Level.CRITICAL if value >= critical else Level.WARNING if value >= warning else Level.GOOD


CHECKS: tuple[Check, ...] = (
    scheduler,
    bridge,
    certificate,
    catalogue,
    tick,
    copy,
    limits,
    work,
    spoiled,
    disk,
    replica,
)


def findings_of(project: Project, settings: UnitSettings) -> list[Finding]:
    """Returns what all checks found. A check that fails by itself is unknown."""
    found: list[Finding] = []
    for check in CHECKS:
        try:
            found += check(project, settings)
        except (Fault, OSError) as fault:
            found.append(Finding(check.__name__, Level.UNKNOWN, text_of(fault)))
    return found


def text_of(fault: Exception) -> str:
    """Returns why a check failed, in words for an operator."""
    if not isinstance(fault, OSError) or fault.filename is None:
        return str(fault)
    advice = ": ask as root" if isinstance(fault, PermissionError) else ""
    return f"{fault.filename}: {fault.strerror}{advice}"


# ---- For the bridge


def write_findings(project: Project, settings: UnitSettings, found: Iterable[Finding]) -> None:
    """Writes what was found, and how old the copies are, for the operator's board: the bridge may not look at
    them itself."""
    copies = copies_of(project, settings)
    oldest, newest = (moment_of(copies[at]) if copies else None for at in (-1, 0))
    findings = Findings(int(time.time()), list(found), len(copies), oldest, newest)
    path = project.made(project.work, 0o700) / FINDINGS
    keep_file(path, findings.text().encode(), 0o600)
