"""The page with the project's status, as HTML with plots. Each plot has its numbers in a table."""
import re
from collections.abc import Iterable, Mapping, Sequence
from dataclasses import dataclass
from html import escape
from pathlib import Path

from bsched_files.atomic import replace_file
from bsched_files.copies import COPY_NAME
from bsched_files.counts import Counts
from bsched_files.faults import Fault
from bsched_files.moments import DAY, HOUR, minute_text, time_text
from bsched_files.tables import Tables, opened
from bsched_files.texts import credit_number

from . import plots
from .copies.folder import turn
from .counts import counted
from .history import TURNAROUND_HOURS, Entry, History
from .page_facts import (
    credit_by_user,
    deadlines_by_hour,
    hosts_with_errors,
    marked_by_class,
    stuck_workunits,
)

TURN_SECONDS = 60.0
MOST_POINTS = 500
STYLE = """
:root { color-scheme: light dark;
  --text: #1b1f24; --back: #fcfcfb; --line: #d5d7da; --quiet: #5c6570; --warn: #a33a10 }
@media (prefers-color-scheme: dark) {
  :root { --text: #e4e6e9; --back: #16191d; --line: #3a4048; --quiet: #9aa4af; --warn: #ff9a6b }
}
* { box-sizing: border-box }
body { font: 1rem/1.45 system-ui, sans-serif; color: var(--text); background: var(--back); margin: 0 auto;
  padding: 1rem; max-width: 90rem }
h1 { font-size: 1.5rem; margin: 0.5rem 0 } h2 { font-size: 1.1rem; margin: 0 0 0.5rem }
p, figcaption { color: var(--quiet); margin: 0.25rem 0 }
main { columns: 26rem; column-gap: 1.5rem }
section { border-top: 1px solid var(--line); padding-top: 0.75rem; margin-bottom: 1.5rem;
  break-inside: avoid }
figure { margin: 0 } svg { width: 100%; height: auto; max-width: 40rem; display: block }
.wide { overflow-x: auto } table { border-collapse: collapse; font-size: 0.9rem; width: 100% }
th, td { text-align: left; padding: 0.2rem 0.75rem 0.2rem 0; border-bottom: 1px solid var(--line);
  overflow-wrap: break-word; max-width: 22rem }
td.number, th.number { text-align: right; font-variant-numeric: tabular-nums; white-space: nowrap }
summary { cursor: pointer; color: var(--quiet) } .warn { color: var(--warn) }
"""
Cell = str | int


def table(header: Sequence[str], rows: Iterable[Sequence[Cell]]) -> str:
    """Returns a table. Numbers are aligned to the right."""
    body_rows = [list(row) for row in rows]
    if not body_rows:
        return "<p>None.</p>\n"
    is_number = [all(isinstance(row[at], int) for row in body_rows) for at in range(len(header))]
    kinds = [' class="number"' if one else "" for one in is_number]
    head = "".join(f'<th scope="col"{kind}>{escape(cell)}</th>' for kind, cell in zip(kinds, header))
    body = ""
    for row in body_rows:
        cells = (f"<td{kind}>{escape(str(cell))}</td>" for kind, cell in zip(kinds, row))
        body += f"<tr>{''.join(cells)}</tr>\n"
    head = f"<thead><tr>{head}</tr></thead>"
    return f'<div class="wide"><table>\n{head}\n<tbody>\n{body}</tbody></table></div>\n'


def section(title: str, *parts: str) -> str:
    """Returns a section of the page."""
    return f"<section>\n<h2>{escape(title)}</h2>\n{''.join(parts)}</section>\n"


def hidden(numbers: str) -> str:
    """Returns the table of a plot, folded away."""
    return f"<details><summary>The numbers</summary>\n{numbers}</details>\n"


def figure(svg: str, caption: str, numbers: str) -> str:
    """Returns a plot with its numbers."""
    caption_line = f"<figcaption>{escape(caption)}</figcaption>\n" if caption else ""
    return f"<figure>\n{svg}\n{caption_line}</figure>\n{hidden(numbers)}"


# ---- The parts


def change_text(now: int, before: int | None) -> str:
    """Returns a change as text."""
    return "" if before is None else f"{now - before:+}"


def whole_credit(millicredits: int) -> dict[str, int]:
    """Returns credit without its fraction."""
    return {"credit": millicredits // 1000}


def counts_part(counts: Counts, entries: list[Entry]) -> str:
    """Returns what is counted now, and how it changed within a day."""
    older = next((entry for entry in reversed(entries) if entry.moment <= counts.moment - DAY), None)
    rows: list[Sequence[Cell]] = []
    kinds: list[tuple[str, dict[str, int], dict[str, int]]] = [
        ("workunits ", counts.workunits, older.workunits if older else {}),
        ("instances ", counts.instances, older.instances if older else {}),
        ("", counts.people, older.people if older else {}),
        ("", whole_credit(counts.millicredits), whole_credit(older.millicredits) if older else {}),
    ]
    for kind, now, before in kinds:
        rows += [(kind + name, number, change_text(number, before.get(name))) for name, number in now.items()]
    when = f"since {minute_text(older.moment)}" if older else "within a day"
    parts = [table(("what", "number", when), rows)]
    if counts.calls_unknown:
        reason = "no copy that is a day older can be read"
        parts.append(f"<p>How many hosts called in the last day is unknown: {reason}.</p>\n")
    return section("Counts", *parts)


def history_part(title: str, name: str, entries: list[Entry], series: dict[str, list[float]]) -> str:
    """Returns how some numbers changed."""
    if len(entries) < 2:
        return section(title, "<p>There is one report so far: the plot comes with the next one.</p>\n")
    first, last = entries[0], entries[-1]
    moments = [entry.moment for entry in entries]
    changes = (f"{what} from {values[0]:.0f} to {values[-1]:.0f}" for what, values in series.items())
    text = f"{title} from {minute_text(first.moment)} to {minute_text(last.moment)}: {', '.join(changes)}."
    rows: list[list[Cell]] = []
    for at, moment in enumerate(moments):
        rows.append([minute_text(moment), *(round(values[at]) for values in series.values())])
    svg = plots.lines(name, text, moments, series)
    return section(title, figure(svg, "", table(("when", *series), rows[::-1])))


def thinned(entries: list[Entry]) -> list[Entry]:
    """Returns at most MOST_POINTS entries, the last one among them."""
    step = len(entries) // MOST_POINTS + 1
    return entries[::-1][::step][::-1]


def history_parts(entries: list[Entry]) -> str:
    """Returns how workunits, instances and credit changed."""
    shown = thinned(entries)
    statuses = list(shown[-1].workunits)
    workunits = {name: [float(entry.workunits.get(name, 0)) for entry in shown] for name in statuses[:2]}
    failed = (sum(entry.workunits.get(name, 0) for name in statuses[2:]) for entry in shown)
    workunits["failed"] = [float(number) for number in failed]
    states = ("waiting", "held", "late")
    instances = {name: [float(entry.instances.get(name, 0)) for entry in shown] for name in states}
    credit = {"credit": [entry.millicredits / 1000 for entry in shown]}
    return (
        history_part("Workunits", "workunits", shown, workunits)
        + history_part("Instances", "instances", shown, instances)
        + history_part("Credit", "credit", shown, credit)
    )


def turnaround_part(entries: list[Entry], moment: int) -> str:
    """Returns how long results took that were reported within the last 30 days."""
    recent = [entry.turnaround for entry in entries if entry.moment > moment - 30 * DAY]
    numbers = [sum(column) for column in zip(*recent)]
    labels = [f"{hours} h" if hours < 24 else f"{hours // 24} d" for hours in TURNAROUND_HOURS] + ["more"]
    if not any(numbers):
        return section("Turnaround", "<p>No result was reported between two reports so far.</p>\n")
    shares = ", ".join(f"{label} {number}" for label, number in zip(labels, numbers))
    text = f"Turnaround of {sum(numbers)} results, from sending to report, at most: {shares}."
    svg = plots.columns("turnaround", text, labels, numbers, "from sending to report, at most")
    caption = "Of results of the last 30 days, from sending to the first copy with the report."
    return section("Turnaround", figure(svg, caption, table(("at most", "results"), zip(labels, numbers))))


def deadlines_part(tables: Tables, late: int) -> str:
    """Returns the deadlines of the next day."""
    numbers = deadlines_by_hour(tables)
    already = f"{late} instances are late already, and lapse at the next tick."
    if not any(numbers):
        return section("Deadlines of the next day", f"<p>No deadline is in the next day. {already}</p>\n")
    labels = [time_text(tables.moment + HOUR * hour) for hour in range(len(numbers))]
    text = f"{sum(numbers)} deadlines in the next day, at most {max(numbers)} in an hour."
    svg = plots.columns("deadlines", text, labels, numbers, "hour that begins at (UTC)")
    rows = [(label, number) for label, number in zip(labels, numbers) if number]
    caption = f"{text} {already}"
    return section("Deadlines of the next day", figure(svg, caption, table(("hour from", "deadlines"), rows)))


def credit_part(tables: Tables) -> str:
    """Returns the credit by user."""
    users = credit_by_user(tables)
    rows = [(name, credit_number(millicredits), hosts) for name, millicredits, hosts in users]
    numbers = table(("user", "credit", "hosts"), rows)
    best = [(name, millicredits / 1000) for name, millicredits, _ in users[:10] if millicredits]
    if not best:
        return section("Credit by user", "<p>No user has credit yet.</p>\n")
    text = "The users with the most credit: " + ", ".join(f"{name} {credit:.0f}" for name, credit in best)
    svg = plots.bars("users", text, [name for name, _ in best], [credit for _, credit in best])
    return section("Credit by user", figure(svg, "The ten users with the most credit.", numbers))


def errors_part(tables: Tables) -> str:
    """Returns the hosts with the most errors."""
    header = ("host", "user", "errors", "invalid", "late", "of", "quota")
    hosts = hosts_with_errors(tables)
    rows = [
        (str(one.host), one.user, one.errors, one.invalid, one.late, one.given, one.quota) for one in hosts
    ]
    return section("Hosts with the most errors", table(header, rows))


def marked_part(tables: Tables) -> str:
    """Returns the open marked workunits, and those that wait for a class that no newest version has."""
    rows = [(name or "none yet", units, waiting) for name, units, waiting in marked_by_class(tables)]
    parts = [table(("class", "open workunits", "instances that wait"), rows)]
    if stuck := stuck_workunits(tables):
        warning = "These wait for a class that no newest version has: import a version of the class."
        parts += [f'<p class="warn">{warning}</p>\n', table(("workunit", "class"), stuck)]
    return section("Marked workunits", *parts)


def used_part(counts: Counts) -> str:
    """Returns how much of each limit is used."""
    rows = [
        (name, limit.used, limit.most, limit.most - limit.used, f"{100 * limit.used / limit.most:.1f} %")
        for name, limit in counts.limits.items()
    ]
    shares = [100 * limit.used / limit.most for limit in counts.limits.values()]
    text = "How much of each limit is used: " + ", ".join(f"{row[0]} {row[4]}" for row in rows)
    svg = plots.bars("used", text, list(counts.limits), shares, most=100)
    caption = "How much of each limit is used, in percent."
    header = ("what", "used", "at most", "left", "share")
    return section("Used", figure(svg, caption, table(header, rows)))


# ---- The page


def page(tables: Tables, counts: Counts, entries: list[Entry], name: str) -> str:
    """Returns the page of the project with this name."""
    title = f"{escape(name)}: status"
    parts = [
        counts_part(counts, entries),
        history_parts(entries),
        turnaround_part(entries, tables.moment),
        deadlines_part(tables, counts.instances["late"]),
        credit_part(tables),
        errors_part(tables),
        marked_part(tables),
        used_part(counts),
    ]
    head = (
        f'<meta charset="utf-8">\n<title>{title}</title>\n<style>{STYLE}</style>\n'
        '<meta name="viewport" content="width=device-width, initial-scale=1">\n'
    )
    when = f"<p>As of {minute_text(tables.moment)}, from a copy of the tables.</p>"
    body = f"<header>\n<h1>{title}</h1>\n{when}\n</header>\n<main>\n{''.join(parts)}</main>\n"
    return f'<!DOCTYPE html>\n<html lang="en">\n<head>\n{head}</head>\n<body>\n{body}</body>\n</html>\n'


def clean(text: str) -> str:
    """Returns a text without the characters that HTML and SVG do not allow."""
    return re.sub("[\x00-\x08\x0b\x0c\x0e-\x1f\x7f-\x9f\ufffe\uffff]", "\ufffd", text)


@dataclass(frozen=True, slots=True)
class Report:
    """A page that was written."""

    path: Path
    entries: list[Entry]  # the history, with what this page counted


def write_report(
    path: Path,
    folder: Path,
    title: str | None = None,
    names: Mapping[str, str] | None = None,
    kept: Path | None = None,
    counts: Counts | None = None,
) -> Report:
    """Writes the page of a copy into a folder. The history is appended in the folder `kept`, or in the same
    one. Without a title the page has the name of the tables. Without the counts of the copy they are counted.
    """
    for one in (folder, kept):
        if one is not None and not one.is_dir():
            raise Fault(f"{one}: no such folder: make it first")
    with opened(path, names=names) as tables, turn(folder, TURN_SECONDS):
        match = COPY_NAME.fullmatch(tables.path.name)
        counts = counted([tables.path]) if counts is None else counts
        history = History(kept or folder)
        history.add(tables, counts)
        name = title or (match["stem"] if match else tables.path.stem)
        text = page(tables, counts, history.entries, name)
        target = folder / "index.html"
        replace_file(target, [clean(text).encode(errors="replace")])
    return Report(target, history.entries)
