"""Attacks by what a volunteer writes: outputs, files for a digest program, and names. And a state file with
two names.
"""
import hashlib
import os
import re
import subprocess
import sys
import threading
import time
from collections import Counter
from urllib.parse import urlencode

from messages import jobs, names, request
from trial.programs import PACKAGES, TrialFault
from uploading import file_info, report, upload

from .attack import through
from .computers import TOO_OFTEN, call
from .members import attach
from .sending import asked
from .strangers import account_path
from .target import ATTACKER, GOOD, Target, address_of

CONTENT = b"#!/bin/sh\necho harm\n"
# what can't be seen, and a letter that looks like another one
UNSEEN = ("\u3164", "\u2800", "\u034f", "\ufe0f", "\u17b4", "\u202e", "\u200b", "  ", "")
ALIKE = ("TeamA", "Team\u034fA", "Te\u0430mA", "Team\u200bA", "TEAMa")


def given_jobs(
    target: Target, app: str, count: int, prefix: str, cpid: str, key: str = ATTACKER
) -> list[str]:
    """Has a computer attach and get this many jobs of an application. Returns their names."""
    target.give(app, [f"{prefix}{number}" for number in range(count)])
    reply = call(target, 0, request(key=key, cpid=cpid, seconds=10 * count))
    found = jobs(reply)
    if len(found) != count:
        raise TrialFault(f"a computer gets {found} in place of {count} jobs")
    return found


def send_upload(target: Target, result: str, data: bytes, most: int, number: int = 0) -> None:
    """Uploads the output file of a result."""
    name = f"{result}_0"
    body = upload(name, data, target.tokens.token(name, most), most)
    for _ in range(20):
        status, answer = asked(target, address_of(600 + number), "POST", target.url_of(name), body)
        if b"<status>0</status>" in answer:
            return
        time.sleep(0.5)
    raise TrialFault(f"an upload is refused: {status} {answer!r}")


def run_tools(target: Target, *words: str) -> str:
    """Runs a command of the tools, which must succeed. Returns what it prints, to the byte."""
    done = subprocess.run(
        [sys.executable, "-m", "bsched_tools", *words],
        cwd=target.folder,
        env={**os.environ, "PYTHONPATH": PACKAGES, "PYTHONDONTWRITEBYTECODE": "1"},
        capture_output=True,
        timeout=120,
    )
    if done.returncode:
        raise TrialFault(f"{words[0]} ends with {done.returncode}: {done.stdout!r}{done.stderr!r}")
    return done.stdout.decode()


def name_files_in_outputs(target: Target, ending: threading.Event) -> str:
    """Writes lines into its standard error that name files in the folder of uploads, for an application
    without output files.
    """
    result = given_jobs(target, "digested", 1, "stored", "names")[0]
    hostid = attach(target, "writer", 1)
    data = b"0 0\n" + CONTENT
    send_upload(target, result, data, 1000)
    target.give("plain", ["forged0"])
    seqno = 1
    line = f"run.sh sha256:{hashlib.sha256(data).hexdigest()} {len(data)}"
    reply = call(target, 1, request(key=ATTACKER, cpid="writer", hostid=hostid, seqno=seqno, seconds=1))
    forged = jobs(reply)
    reports = [(name, f"{line}\n../run.sh {line[7:]}\nresults.csv {line[7:]}") for name in forged]
    body = request(key=ATTACKER, cpid="writer", hostid=hostid, seqno=seqno + 1, seconds=0, reports=reports)
    acknowledged = names(call(target, 1, body), "result_ack")
    through(acknowledged != forged or not forged, f"the report is not taken: {acknowledged}, {forged}")
    folder = target.folder / "outputs"
    for new in (folder, target.folder / "copies"):
        new.mkdir()
    run_tools(target, "copy", "--tables", "project.db", "--to", "copies")
    run_tools(target, "results", "--tables", "copies", "--uploads", "uploads", "--files", "outputs")
    made = sorted(path.name for path in folder.rglob("*") if path.is_file())
    bad = [name for name in made if name not in ("out", "results.csv")]
    through(bad, f"an output made the files {bad}")
    contents = [path for path in folder.rglob("*") if path.is_file() and CONTENT in path.read_bytes()]
    through(contents, f"the forged content is in {contents}")
    return f"the report is taken as a text; the operator's folder of outputs has {made or 'no file'}"


def occupy_digests(target: Target, ending: threading.Event) -> str:
    """Six computers report two results each, whose files make the digest program take its time or fail. An
    honest volunteer reports one meanwhile.
    """
    target.give("digested", [f"slow{number}" for number in range(13)])
    held = dict[tuple[int, int], list[str]]()
    for number in range(6):
        body = request(key=ATTACKER, cpid=f"digest{number}", seconds=20)
        reply = call(target, number, body)
        hostid = int(re.findall("<hostid>([0-9]+)", reply.decode())[0])
        held[number, hostid] = jobs(reply)
    files = {
        name: b"30 0\n" if place % 2 else b"0 1\n"
        for place, name in enumerate(n for some in held.values() for n in some)
    }
    for name, data in files.items():
        send_upload(target, name, data, 1000)
    counts, acknowledged = Counter[int](), list[str]()

    def report_all(number: int, hostid: int, results: list[str]) -> None:
        counts[number] += 1
        body = request(
            key=ATTACKER,
            cpid=f"digest{number}",
            hostid=hostid,
            seqno=counts[number],
            seconds=0,
            reports=[(name, "") for name in results],
        )
        for name in results:
            info = file_info(f"{name}_0", files[name]).replace("<max_nbytes>20000", "<max_nbytes>1000")
            body = body.replace("</stderr_out></result>", f"</stderr_out>{info}</result >", 1)
        body = body.replace("</result >", "</result>")
        acknowledged.extend(names(call(target, number, body, TOO_OFTEN), "result_ack"))

    for (number, hostid), results in held.items():
        report_all(number, hostid, results)
    honest, seconds = report_honestly(target), time.monotonic()
    while not ending.is_set():
        for (number, hostid), results in held.items():
            if not ending.wait(0.2):
                report_all(number, hostid, results)
    through(acknowledged, f"reports whose digest program fails are taken: {acknowledged}")
    done = honest(60)
    through(not done, "an honest report waits for its digest program for more than a minute")
    took = time.monotonic() - seconds
    return f"{len(files)} reports wait, as they should; an honest one is taken after {took:.0f} s"


def report_honestly(target: Target) -> "HonestReport":
    """Has an honest volunteer upload a file for the digest program, and report it."""
    key = GOOD[-1]
    reply = call(target, 50, request(key=key, cpid="digesting", seconds=1))
    hostid = int(re.findall("<hostid>([0-9]+)", reply.decode())[0])
    results = jobs(reply)
    if len(results) != 1:
        raise TrialFault(f"an honest volunteer gets {results}")
    send_upload(target, results[0], b"0 0\n", 1000, 50)
    return HonestReport(target, key, hostid, results[0])


class HonestReport:
    """An honest report that waits for a digest program."""

    def __init__(self, target: Target, key: str, hostid: int, result: str) -> None:
        self.target, self.key, self.hostid, self.result, self.count = target, key, hostid, result, 0
        self._report()

    def _report(self) -> bool:
        """Reports. Returns whether the report is acknowledged."""
        self.count += 1
        info = file_info(f"{self.result}_0", b"0 0\n").replace("<max_nbytes>20000", "<max_nbytes>1000")
        body = report(self.result, [info], self.hostid, key=self.key, cpid="digesting", seqno=self.count)
        return self.result in names(call(self.target, 50, body), "result_ack")

    def __call__(self, seconds: float) -> bool:
        """Reports again and again. Returns whether the report is acknowledged within so many seconds."""
        ends = time.monotonic() + seconds
        while time.monotonic() < ends:
            if self._report():
                return True
            time.sleep(1)
        return False


def name_state_twice(target: Target, ending: threading.Event) -> str:
    """Starts a second bridge whose settings name the state file of the first by a link."""
    settings = (target.folder / "bridge.toml").read_text()
    found = []
    for kind in ("symbolic", "hard"):
        link = target.folder / f"{kind}.db"
        if kind == "symbolic":
            link.symlink_to("bridge.db")
        else:
            link.hardlink_to(target.folder / "bridge.db")
        second = settings.replace('state = "bridge.db"', f'state = "{link.name}"')
        second = second.replace('folder = "uploads"', f'folder = "{kind}_uploads"')
        (target.folder / f"{kind}.toml").write_text(second)
        words = [sys.executable, "-m", "bsched_bridge", "--config", f"{kind}.toml"]
        environment = {**os.environ, "PYTHONPATH": PACKAGES, "PYTHONDONTWRITEBYTECODE": "1"}
        try:
            done = subprocess.run(
                words, cwd=target.folder, env=environment, capture_output=True, text=True, timeout=60
            )
        except subprocess.TimeoutExpired:
            through(True, f"a second bridge serves the state file by a {kind} link")
        finally:
            link.unlink()
        through(done.returncode == 0, f"a second bridge with a {kind} link ends with status 0")
        lines = done.stderr.strip().splitlines() or [""]
        through("Traceback" in done.stderr, f"a {kind} link: {done.stderr}")
        found.append(f"{kind} link: {lines[-1].rpartition('/')[2]}")
    return "; ".join(found)


def hide_names(target: Target, ending: threading.Event) -> str:
    """Makes users whose names can't be seen, and teams whose names look alike."""
    keys, shown = list[str](), Counter[str]()
    for number in range(5):
        _, answer = asked(
            target, address_of(number), "GET", account_path("create_account.php", f"unseen{number}")
        )
        found = re.search(b"<authenticator>([0-9a-f]+)<", answer)
        if found is None:
            raise TrialFault(f"there is no account: {answer!r}")
        keys.append(found[1].decode())
        attach(target, f"unseen{number}", number, keys[-1])

    def sent(path: str, number: int, **fields: str) -> str:
        kind = {"Content-Type": "application/x-www-form-urlencoded"}
        _, page = asked(target, address_of(number % 5), "POST", path, urlencode(fields), fields=kind)
        return page.decode()

    for number, name in enumerate(UNSEEN):
        page = sent("/account_finish.php", number, key=keys[number % 5], name=name)
        through("Your changes are saved." in page, f"the name {name!r} is taken")
        shown["refused"] += 1
        time.sleep(0.2)
    taken = []
    for number, name in enumerate(ALIKE):
        if "Your team is made." in sent("/account_team", number, key=keys[number], action="make", team=name):
            taken.append(name)
        time.sleep(0.2)
    through(len(taken) != 1, f"teams that look alike: {taken}")
    seen = f"{shown['refused']} names that can't be seen are refused"
    return f"{seen}; of {len(ALIKE)} teams that look alike {len(taken)} is made"
