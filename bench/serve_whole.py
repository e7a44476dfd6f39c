"""The case `whole` of `bench/serve`: the whole life of a project, until every workunit is decided.

Hosts come, ask for jobs and report them. They lose replies and repeat the call, lose jobs, report errors and
wrong outputs, and some go away for good. The operator imports more workunits when few wait. One workunit of
twenty has a deadline of a second. Before each tick the script waits until all such deadlines have passed. At
each restart a tick of the command line, at a moment days ahead, finds the jobs late that were sent before the
last restart. So it does not depend on the speed of the machine which jobs are late.

A seed decides all calls. Two runs with the same seed print the same digest of all messages and answers
without deadlines, unless midnight (UTC) is within one of them: a host may get only so many jobs on a day.

The twin answers the same messages in this process (twinned.py). The copies are those of `bsched-tools copy`,
which stops the server (SIGSTOP) while it copies both files. At the end the next file of the project begins by
the commands of docs/NEXT_FILE.md, taken from that page.
"""
import heapq
import json
import os
import random
import re
import shutil
import subprocess
import textwrap
import time
from collections import Counter
from dataclasses import dataclass
from datetime import datetime, timezone
from pathlib import Path

import plain
import plain_tables
import serve_life
from plain_formats import FURTHER, KINDS
from played import Options, limit_time, reset_peak
from serve_life import CREDIT, DELAY, FPOPS, HOUR, Client, Life, Reply
from served import memory_of, ordered, peak, wants
from twinned import TICK, Message, Twinned, call_of, import_of

TOP = Path(__file__).resolve().parent.parent
PYTHON = "/usr/bin/python3"  # Debian's: the tools need its packages
STEPS = 20  # how many lines are printed
# what happens how often: the number of workunits divided by this is the number of calls between two of them
RESTARTS, COPIES, TICKS, LOOKS = 2, 20, 40, 400
LEAST_COPIES, LEAST_TICKS = 500, 400  # but at least so many: a tick waits until deadlines have passed
CALLS_EACH = 5  # at least so many calls of each host come between two restarts
FIRST, MORE = 10, 100  # a tenth of the workunits is imported at first, and a hundredth when few wait
BATCH = 10_000  # how many workunits an import has at most
LEAST_HOSTS = 200  # each user has ten, and a workunit may need instances of eight users
SHORT, SHORTS = 1, 20  # the delay bound, in seconds, of one workunit of twenty
NEVER = 50  # the outputs of one workunit of fifty never agree
MARKED = 10  # one workunit of ten keeps to a class
FAULTY = 20  # one host of twenty reports mostly errors
WINDOWS = 4  # one host of four has the other platform
FORGETS, STALE, AGAIN = 0.003, 0.01, 0.5  # chances at a call
GONE = 0.03  # and, divided by the workunits for each host, that it never calls again
HURRY, WAIT = 0.02, 5.0  # the pace of hosts with a job that is due soon, and of those that found no work
MOST_LOG = 16 * 2**20  # the log stays below this, in bytes
MOST_GROWTH = 16 * 1024  # the memory of a server grows by less in its calls, in kilobytes
# application, min_quorum, target_nresults, max_error_results, max_total_results, max_success_results
LIMITS = [
    "dock,1,1,2,4,3",
    "dock,2,2,3,8,6",
    "fold,2,2,3,8,6",
    "dock,2,3,3,8,6",
    "fold,3,3,3,5,5",
    "dock,2,2,0,8,6",
]
PLATFORMS = ["x86_64-pc-linux-gnu", "windows_x86_64"]
NEXT_CALLS = 200  # how many calls the next file gets
NAMES = ["open", "done", "failed by errors", "failed by successes", "failed by the total"]
WAITING = "SELECT count(*) FROM instance WHERE queued = 1"
DECIDED = "SELECT count(*) FROM unit WHERE status <> 0"
# what a copy must have as the twin has it at that time
COUNTED = (
    f"SELECT ({DECIDED}), (SELECT count(*) FROM host), (SELECT sum(seqno) FROM kept4), count(*), "
    "count(host_id), count(outcome), sum(lapse), sum(deadline) FROM instance"
)


# ---- Workunits


def unit_number(name: str) -> int:
    """Returns the number of the workunit in a job's name."""
    return int(name.split("_")[0].removeprefix("unit-"))


def is_short(name: str) -> bool:
    """Returns whether a job is due within a second."""
    return unit_number(name) % SHORTS == 3


def delay_of(name: str) -> int:
    """Returns the delay bound of a job."""
    return SHORT if is_short(name) else DELAY


def workunit_line(number: int) -> str:
    """Returns the line of a workunit in an import."""
    name = f"unit-{number}"
    seconds = SHORT if is_short(name) else HOUR
    limits = LIMITS[number % len(LIMITS)]
    return (
        f"{name},{limits},{delay_of(name)},{seconds * FPOPS},1000000000,1000000000,{CREDIT},"
        f"{int(number % MARKED == 0)}"
    )


def workunits_text(first: int, last: int) -> str:
    """Returns an import of the workunits from a first one to a last one."""
    header = ",".join([*KINDS["workunits"][0], FURTHER["workunits"][0]])
    return "\n".join([header, *map(workunit_line, range(first, last + 1)), ""])


def first_texts(hosts: int) -> dict[str, str]:
    """Returns the imports that come before the workunits."""
    users = [f"user{user},User {user}" for user in range(1, serve_life.user_of(hosts) + 1)]
    versions = [f"{app},{platform},{n}" for app in ("dock", "fold") for platform in PLATFORMS for n in (1, 2)]
    lines = {
        "accounts": ["authenticator,name", *users],
        "apps": ["name,agreement", "dock,exact", "fold,within:2"],
        "versions": ["app,platform,version_num", *versions],
    }
    return {kind: "\n".join([*some, ""]) for kind, some in lines.items()}


# ---- Hosts


class Host(Client):
    """A host. It may report mostly errors."""

    def __init__(self, number: int) -> None:
        super().__init__(serve_life.user_of(number), f"host{number}")
        self.is_faulty, self.end_word = number % FAULTY == 7, ""
        self.facts = {"platform_name": PLATFORMS[number % WINDOWS == 0]}

    def pace(self, chance: float) -> float:
        """Returns how many times as long as usually the host waits before it calls again."""
        if any(map(is_short, self.jobs)) and chance < 0.8:
            return HURRY
        return WAIT if not self.jobs and self.end_word in ("no_eligible_work", "daily_quota") else 1.0


@dataclass
class Step:
    """What happened in a step: the calls with their processor seconds, the largest log, and the peak memory
    in kilobytes."""

    calls: int = 0
    seconds: float = 0.0
    twin_seconds: float = 0.0
    log: int = 0
    peak: int = 0


class Whole(Life):
    """The life of a project, over the tables of one file."""

    def __init__(self, options: Options, both: Twinned, folder: str) -> None:
        self.pick, self.seen = random.Random(options.seed), Counter()
        self.units, self.both, self.folder = options.workunits, both, folder
        self.calls = self.imported = self.decided = 0
        self.growth = (
            self.opened
        ) = self.open_peak = self.order_peak = 0  # of the server's memory, in kilobytes
        self.latest_short = 0  # the latest deadline of a short job
        self.step, self.log, self.stills = Step(), 0, list[float]()
        # the hosts with the times of their next calls; a time is the number of a call
        self.period, self.host, self.gone = options.hosts, Host(1), GONE * options.hosts / self.units
        self.turns = [
            (self.pick.random() * self.units, number, Host(number)) for number in range(1, options.hosts + 1)
        ]
        heapq.heapify(self.turns)

    # ---- Calls

    def send(self, body: bytes) -> Reply | None:
        """Makes one more call. Returns its reply, or None if it is refused."""
        heard = self.both.send(call_of(body))
        step = self.step
        step.calls, self.calls = step.calls + 1, self.calls + 1
        step.seconds, step.twin_seconds = step.seconds + heard.seconds, step.twin_seconds + heard.twin_seconds
        reply = heard.reply()
        for job in [] if reply is None else reply["results"]:
            if is_short(job["name"]):
                self.latest_short = max(self.latest_short, job["report_deadline"])
        return reply

    def report(self, name: str) -> Reply:
        """Returns what the host whose turn it is reports of a finished job."""
        if self.host.is_faulty and self.pick.random() < 0.9:
            return {"name": name, "exit_status": 1}
        if unit_number(name) % NEVER == 1:
            return {"name": name, "exit_status": 0, "output": str(self.pick.randrange(10**9))}
        return super().report(name)

    def take(self, client: Client, body: bytes, reply: Reply, lost: float) -> None:
        """Takes a reply as the host does, which also hears why there are no more jobs."""
        super().take(client, body, reply, lost)
        self.host.end_word = reply["end_word"]
        self.seen[f"end word {reply['end_word']}"] += 1

    def visit(self) -> None:
        """Lets the host whose turn it is call, and chooses when it calls again, if ever."""
        at, number, host = heapq.heappop(self.turns)
        self.host = host
        if host.unheard is not None and self.pick.random() < AGAIN:
            self.seen["repeats"] += 1
            self.take(host, host.unheard, self.answered(host.unheard), 0.1)
        elif host.seqno > 4 and self.pick.random() < STALE:
            self.seen["stale calls"] += 1
            self.send(serve_life.request(host.user, host.cpid, host.seqno - 4, work_req_seconds=7))
        else:
            if host.jobs and self.pick.random() < FORGETS:
                self.seen["hosts that lost their jobs"] += 1
                host.jobs = []
            asked = self.pick.choice([0, *[1] * 8, HOUR + 1])
            self.call(host, asked, kept=0.15, lost=0.1, silent=0.05)
        if self.pick.random() < self.gone:
            self.seen["hosts that went away"] += 1
            return
        gap = self.period * self.pick.expovariate(1) * host.pace(self.pick.random())
        heapq.heappush(self.turns, (at + gap, number, host))

    # ---- What the operator does

    def order(self, message: Message) -> Reply:
        """Sends an import or a tick, and returns its answer. The memory that it leaves does not count as
        growth by calls."""
        self.measure()
        heard, run = self.both.send(message), self.both.run
        reached = peak(run.server)
        self.step.peak, self.order_peak = max(self.step.peak, reached), max(self.order_peak, reached)
        reset_peak(run)
        self.opened = max(self.opened, memory_of(run.server, "VmRSS"))
        reply = heard.reply()
        if reply is None:
            raise SystemExit(f"refused: {message!r}: {heard.content()!r}")
        return reply

    def import_more(self, part: int) -> None:
        """Imports the next part of the workunits."""
        last = min(self.units, self.imported + -(-self.units // part))
        while self.imported < last:
            first, self.imported = self.imported + 1, min(last, self.imported + BATCH)
            text = workunits_text(first, self.imported)
            reply = self.order(import_of("workunits", f"b{first}", text))
            wants(reply["rows"], self.imported - first + 1, "the rows of an import")
            self.seen["imports of workunits"] += 1

    def tick(self) -> None:
        """Waits until the deadlines of all short jobs have passed, and sends a tick."""
        time.sleep(max(0.0, self.latest_short + 1.01 - time.time()))
        self.seen["ticks"] += 1
        self.seen["jobs late at ticks"] += self.order(TICK)["lapsed"]

    def copy(self, is_checked: bool) -> str:
        """Takes a copy of the program's tables, by the tool, and returns its path. The program opens it, too,
        if that is to be checked."""
        path = os.path.join(self.folder, "taken.db")
        if os.path.exists(path):
            os.remove(path)
        check = ["--check", self.both.program] if is_checked else []
        command = [PYTHON, "-m", "bsched_tools", "copy", "--tables", self.both.ours, "--to", path, *check]
        environment = {**os.environ, "PYTHONPATH": f"{TOP}/tools:{TOP}/files"}
        done = subprocess.run(command, env=environment, capture_output=True, text=True)
        wants(done.returncode, 0, f"the status of a copy, which printed {done.stdout}{done.stderr}")
        still = re.search(r"still for (\d+) milliseconds", done.stdout)
        self.stills += [float(still[1])] if still else []
        self.seen["copies"] += 1
        return path

    def begin(self) -> None:
        """Starts the server and the twin."""
        run = self.both.begin()
        self.open_peak = max(self.open_peak, run.open_peak)
        self.opened = run.open_stays
        reset_peak(run)
        self.began = int(time.time())

    def measure(self) -> None:
        """Adds the log and the peak memory at this time to the step."""
        reached = peak(self.both.run.server)
        self.step.peak = max(self.step.peak, reached)
        self.growth = max(self.growth, reached - self.opened)
        self.step.log = max(self.step.log, os.path.getsize(f"{self.both.ours}-wal"))
        self.log = max(self.log, self.step.log)

    def end(self) -> None:
        """Ends the server and the twin. All rows must be equal then."""
        self.measure()
        self.both.end()
        self.both.same_rows(self.copy(is_checked=True))
        self.seen["comparisons of all rows"] += 1

    def restart(self, moment: int) -> None:
        """Ends the server, has the command send a tick at a moment, and starts the server again, in a later
        second than all calls before."""
        self.end()
        last = int(time.time())
        instant = datetime.fromtimestamp(moment, timezone.utc).strftime("%Y-%m-%dT%H:%M:%SZ")
        output = ordered(self.both.program, "tick", "--tables", self.both.ours, "--at", instant)
        self.both.open_twin()
        answer = TICK.answered_by(self.both.twin, moment)
        wants(output.encode(), answer.partition(b"\r\n\r\n")[2] + b"\n", "what a tick of the command prints")
        self.both.tables.connection.close()
        self.seen["jobs late at ticks of the command"] += json.loads(output)["lapsed"]
        self.seen["restarts"] += 1
        time.sleep(max(0.0, last + 1 - time.time()))
        self.begin()

    # ---- The life

    def every(self, parts: int, least: int = 1) -> bool:
        """Returns whether it is time for what happens once in a part of the workunits' number of calls."""
        return self.calls % max(least, self.units // parts) == 0

    def look(self) -> None:
        """Measures, and imports more workunits if few wait."""
        self.measure()
        (self.decided,) = self.both.first_row(DECIDED)
        if self.imported < self.units and self.both.first_row(WAITING)[0] < self.units // MORE:
            self.import_more(MORE)

    def live(self) -> None:
        """Lives until every workunit is decided, and prints a line for each step."""
        print(
            "whole: step, workunits decided, calls, processor microseconds of a call (of the twin), MB of "
            "the file, of the log, of memory at its peak"
        )
        number, before = 1, 0
        while self.decided < self.units:
            self.visit()
            if self.every(LOOKS):
                self.look()
            while number <= STEPS and self.decided >= number * self.units // STEPS:
                self.tell(number)
                number += 1
            if self.every(TICKS, LEAST_TICKS):
                self.tick()
                is_stuck = self.imported == self.units and self.decided == before
                before = self.decided
                if is_stuck:  # hosts that went away have the last jobs: a week passes
                    self.restart(int(time.time()) + DELAY + 1)
            if self.every(COPIES, LEAST_COPIES):
                self.both.same_first_row(self.copy(is_checked=True), COUNTED, "what a copy has")
            if self.every(RESTARTS, CALLS_EACH * self.period):
                self.restart(self.began + DELAY)

    def tell(self, number: int) -> None:
        """Prints what a step took, and begins the next one."""
        step, size = self.step, os.path.getsize(self.both.ours)
        each = [seconds * 1e6 / max(1, step.calls) for seconds in (step.seconds, step.twin_seconds)]
        print(
            f"whole: {number:2} {self.decided:7} {self.calls:8} {each[0]:5.0f} ({each[1]:.0f}) "
            f"{size / 1e6:7.1f} {step.log / 1e6:5.1f} {step.peak / 1024:6.1f}",
            flush=True,
        )
        self.step = Step()
        reset_peak(self.both.run)

    def tell_all(self) -> None:
        """Prints what happened in all."""
        ends = self.both.first_row
        kinds = [ends(f"SELECT count(*) FROM unit WHERE status = {kind}")[0] for kind in range(len(NAMES))]
        seen = ", ".join(f"{many} {what}" for what, many in sorted(self.seen.items()))
        print(f"whole: {self.calls} calls: {seen}")
        print("whole: workunits: " + ", ".join(f"{many} {what}" for what, many in zip(NAMES, kinds)))
        stills = sorted(self.stills) or [0.0]
        print(
            f"whole: all answers are the twin's; the log reaches {self.log / 1e6:.1f} MB; the memory grows "
            f"by at most {self.growth / 1024:.1f} MB in calls; its peak is {self.open_peak / 1024:.1f} MB in "
            f"an opening, and {self.order_peak / 1024:.1f} in an import or a tick"
        )
        middle, longest = stills[len(stills) // 2], stills[-1]
        print(f"whole: a copy stops serving for {middle:.0f} milliseconds, at most {longest:.0f}")
        print(f"whole: the digest is {self.both.digest.hexdigest()[:16]}", flush=True)

    def check_bounds(self) -> None:
        """Ends the run if the log or the memory grew too much."""
        wants(self.log < MOST_LOG, True, f"that the log stays below {MOST_LOG} bytes")
        wants(self.growth < MOST_GROWTH, True, f"that the memory grows by less than {MOST_GROWTH} kB")


# ---- The next file


def commands_of(page: str, heading: str) -> list[str]:
    """Returns the blocks of commands below a heading of a page."""
    text = (TOP / "docs" / page).read_text().partition(f"\n## {heading}\n")[2].partition("\n## ")[0]
    blocks = re.findall(r"^ *```sh\n(.*?)^ *```$", text, re.DOTALL | re.MULTILINE)
    return [textwrap.dedent(block) for block in blocks]


def put_script(folder: str, name: str, line: str) -> None:
    """Writes a command of one line into a folder."""
    path = Path(folder) / name
    path.write_text(f"#!/bin/sh\n{line}\n")
    path.chmod(0o755)


def begin_next(program: str, folder: str, project: str) -> None:
    """Makes the next file in the folder of a project, by the commands of the page. Units and owners of files
    are not this script's, so `systemctl` and `chown` do nothing."""
    commands = os.path.join(folder, "commands")
    os.mkdir(commands)
    put_script(commands, "bsched", f'exec "{program}" "$@"')
    put_script(
        commands, "bsched-tools", f'PYTHONPATH="{TOP}/tools:{TOP}/files" exec {PYTHON} -m bsched_tools "$@"'
    )
    for name in ("systemctl", "chown"):
        put_script(commands, name, "exit 0")
    stop, carry, *_ = commands_of("NEXT_FILE.md", "More than 200,000 workunits")
    wants("bsched-tools copy" in stop and "bsched create" in carry, True, "that the page has the commands")
    script = stop.replace("/var/lib/bsched/sums", project) + carry
    environment = {**os.environ, "PATH": f"{commands}:{os.environ['PATH']}"}
    done = subprocess.run(
        ["bash", "-c", script], env=environment, capture_output=True, text=True, cwd=project
    )
    wants(done.stdout.splitlines()[-1:], ["good: everything was carried over"], f"the page: {done.stderr}")


def counts(*copies: str) -> dict[str, int]:
    """Returns how many workunits of each status the tool counts in copies."""
    command = [PYTHON, "-m", "bsched_tools", "counts", "--json", "--tables", *copies]
    environment = {**os.environ, "PYTHONPATH": f"{TOP}/tools:{TOP}/files"}
    output = subprocess.run(command, env=environment, capture_output=True, text=True, check=True).stdout
    found: dict[str, int] = json.loads(output)["workunits"]
    return found


def live_on(life: Whole, folder: str, project: str, settings: plain.Settings) -> None:
    """Begins the next file of a project that ended, and lets the same hosts call. New workunits get names
    that the archive does not have."""
    begin_next(life.both.program, folder, project)
    archive, theirs = os.path.join(project, "2026.db"), os.path.join(folder, "next.db")
    wants(counts(archive)["open"], 0, "the open workunits of the archive")
    plain_tables.create(theirs, settings)
    life.both = Twinned(life.both.program, life.both.ours, theirs, delay_of)
    life.both.open_twin()
    for kind in ("accounts", "apps", "versions"):
        life.both.twin.imported(kind, "first", Path(project, f"{kind}.csv").read_text())
    life.both.tables.connection.close()
    life.begin()
    life.units += NEXT_CALLS
    life.import_more(1)
    for _ in range(NEXT_CALLS):
        life.visit()
    life.end()
    both = counts(archive, life.copy(is_checked=False))
    print(f"whole: the next file begins by the page, and {NEXT_CALLS} calls get the twin's answers: {both}")


def whole(options: Options, folder: str) -> None:
    """Plays the whole life of a project, and begins its next file."""
    units, hosts = options.workunits, options.hosts
    limit_time("whole", 3600 + units // 5)
    wants(hosts >= LEAST_HOSTS and units >= hosts, True, f"{LEAST_HOSTS} hosts, and as many workunits")
    settings = serve_life.SETTINGS | {"daily_result_quota": max(8, 4 * units // hosts)}
    project, theirs = os.path.join(folder, "project"), os.path.join(folder, "twin.db")
    os.mkdir(project)
    ours = os.path.join(project, "project.db")
    serve_life.create(options.program, ours, settings)
    shutil.copy(serve_life.settings_file(settings), os.path.join(project, "settings.toml"))
    plain_tables.create(theirs, settings)
    both, texts = Twinned(options.program, ours, theirs, delay_of), first_texts(hosts)
    serve_life.import_texts(options.program, ours, texts)
    both.open_twin()
    for kind, text in texts.items():
        both.twin.imported(kind, "b1", text)
    both.tables.connection.close()
    life = Whole(options, both, folder)
    life.begin()
    life.import_more(FIRST)
    life.live()
    life.tell_all()
    life.end()
    print("whole: all rows are the twin's", flush=True)
    live_on(life, folder, project, settings)
    life.check_bounds()
