"""Attacks on the operator: texts of hosts that the tools print, and a project's user who chooses where root's
tools write.
"""
import csv
import io
import json
import os
import subprocess
import sys
import threading
from collections import Counter
from pathlib import Path

from messages import jobs, names, request
from trial.programs import PACKAGES, TrialFault

from .attack import through
from .computers import call
from .files import run_tools
from .members import attach
from .target import ATTACKER, Target

# what moves a terminal's cursor, turns a text around, begins a formula, or ends a row
TEXTS = (
    "\u009b31mred\u009b0m",
    "\u202eevil\u202c",
    '=HYPERLINK("http://elsewhere.example/","results")',
    "+1+cmd|' /C calc'!A0",
    "@SUM(1)",
    "-2+3",
    "first\rsecond,third\r=1+1",
    "\t=1+1",
    "\x85next\u2028line\u2029end",
    "\u200b\u2066hidden\u2069",
)
FORMULAS = ("=", "+", "-", "@", "\t", "\r")


def print_hostile_texts(target: Target, ending: threading.Event) -> str:
    """Reports outputs that a terminal or a spreadsheet would obey, and has the tools print them."""
    app = "plain"
    target.give(app, [f"text{number}" for number in range(len(TEXTS))])
    reply = call(target, 0, request(key=ATTACKER, cpid="texts", seconds=10 * len(TEXTS)))
    hostid, given = attach(target, "texts"), jobs(reply)
    if len(given) != len(TEXTS):
        raise TrialFault(f"a computer gets {given} in place of {len(TEXTS)} jobs")
    reports = list(zip(given, TEXTS))
    body = request(key=ATTACKER, cpid="texts", hostid=hostid, seqno=1, seconds=0, reports=reports)
    acknowledged = names(call(target, 0, body), "result_ack")
    through(sorted(acknowledged) != sorted(given), f"reports are not taken: {acknowledged}")
    (target.folder / "copies").mkdir()
    run_tools(target, "copy", "--tables", "project.db", "--to", "copies")
    table = run_tools(target, "results", "--tables", "copies")
    lines = run_tools(target, "results", "--tables", "copies", "--json")
    for text in (table, lines, *(run_tools(target, "job", "--tables", "copies", one) for one in given)):
        odd = sorted({one for one in text if not one.isprintable() and one not in "\t\n"})
        through(odd, f"what the tools print has {odd}")
    rows = list(csv.DictReader(io.StringIO(table, newline="")))
    through(len(rows) != len(TEXTS), f"{len(TEXTS)} results make {len(rows)} rows")
    through("\r" in table, "a table has a carriage return")
    formulas = [cell for row in rows for cell in row.values() if cell.startswith(FORMULAS)]
    through(formulas, f"a table has the formulas {formulas}")
    told = {json.loads(line)["output"].strip() for line in lines.splitlines()}
    changed = [text for text in TEXTS if "\r" not in text and text.strip() not in told]
    seen = f"{len(TEXTS)} outputs make {len(rows)} rows, with no formula and nothing that can't be printed"
    return f"{seen}; as JSON {len(changed)} of them are changed"


# ---- Root


OWNER = 65534  # the user `nobody`
SECRET = b"what only root may read"
# where the user of the project has root write: {0} is a folder of root, and `link` leads there
FOLDERS = (
    "{0}",
    "{0}/new.d",
    "../elsewhere",
    "../elsewhere/new.d",
    "link",
    "link/new.d",
    "/run/bsched-attack.d",
)
UNITS = """\
copy = {{ folder = "{copies}", check = false }}
page = {{ folder = "{public}" }}
statistics = {{ folder = "{public}", everybody = true }}
"""
COPIES = "copies"  # within the project's folder
READERS = ("counts", "results", "statistics", "process", "health")


def is_root() -> bool:
    """Returns whether this process is root and there are other users, as in no namespace of a user."""
    ranges = [line.split() for line in Path("/proc/self/uid_map").read_text().splitlines()]
    return os.geteuid() == 0 and any(int(one[0]) <= OWNER < int(one[0]) + int(one[2]) for one in ranges)


def things_in(folder: Path) -> dict[str, tuple[int, ...]]:
    """Returns what is in a folder, and whose it is."""
    found = dict[str, tuple[int, ...]]()
    for path in (folder, *folder.rglob("*")):
        status = path.lstat()
        found[str(path)] = (status.st_uid, status.st_gid, status.st_mode, status.st_size, status.st_mtime_ns)
    return found


def give_all(folder: Path) -> None:
    """Gives a folder with all that is in it to the user of the trial."""
    for path in (folder, *folder.rglob("*")):
        os.chown(path, OWNER, OWNER, follow_symlinks=False)


def say_where_root_writes(target: Target, ending: threading.Event) -> str:
    """The user of a project names folders of root in `units.toml`, and puts links in the way. Root runs the
    tools over this project.
    """
    if not is_root():
        return "not run, since it needs root of the machine, and a second user"
    top = target.folder / "owned"
    project, elsewhere = top / "sums", top / "elsewhere"
    project.mkdir(parents=True)
    elsewhere.mkdir()
    (elsewhere / "secret").write_bytes(SECRET)
    (elsewhere / "secret").chmod(0o600)
    run_tools(target, "copy", "--tables", "project.db", "--to", str(project / "project.db"))
    (project / "settings.toml").write_bytes((target.folder / "settings.toml").read_bytes())
    (project / "environment").write_text(f"PORT={target.scheduler.port}\n")
    (project / "link").symlink_to(elsewhere)
    before, statuses = things_in(elsewhere), Counter[str]()

    def run(command: str, copies: str, public: str) -> None:
        (project / "units.toml").write_text(UNITS.format(copies=copies, public=public))
        give_all(project)
        is_good = status_of_tools(command, project) == 0
        statuses["succeed" if is_good else "are refused"] += 1
        changes = set(things_in(elsewhere).items()) ^ set(before.items())
        through(changes, f"{command}, copies in {copies}, pages in {public}: {changes}")
        through(Path(FOLDERS[-1]).exists(), f"{command} made {FOLDERS[-1]}")

    run("copy", COPIES, "page")
    (copy,) = (project / COPIES).glob("*.db")
    through(copy.stat().st_uid != OWNER, f"a copy belongs to {copy.stat().st_uid}")
    for name in FOLDERS:
        named = name.format(elsewhere)
        run("copy", named, "page")
        for command in READERS:
            run(command, COPIES, named)
    known = [path for path in project.rglob("*") if path.is_file() and SECRET in path.read_bytes()]
    through(known, f"the user of the project got what only root may read: {known}")
    return f"commands of root: {dict(statuses)}; nothing outside is changed, and the copy is the user's"


def status_of_tools(command: str, project: Path) -> int:
    """Runs a command of the tools over a project as root. Returns its exit status."""
    done = subprocess.run(
        [sys.executable, "-m", "bsched_tools", command, "--project", str(project)],
        cwd="/",
        env={**os.environ, "PYTHONPATH": PACKAGES, "PYTHONDONTWRITEBYTECODE": "1"},
        capture_output=True,
        timeout=120,
    )
    through(b"Traceback" in done.stderr, f"{command}: {done.stderr!r}")
    return done.returncode
