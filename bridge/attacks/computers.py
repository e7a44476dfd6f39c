"""Attacks with computers: many at once, copies, and numbers that a lost state file gives anew."""
import sqlite3
import threading
from collections import Counter
from collections.abc import Iterable
from concurrent.futures import ThreadPoolExecutor
from contextlib import closing

from messages import jobs, names, request, value
from trial.programs import TrialFault

from .attack import through
from .members import ATTEMPTS, HOSTS_ADDRESS, attach
from .sending import asked
from .target import ATTACKER, Target, address_of

# fewer than the searches of an account in a minute, by which the bridge finds whose a result is
COMPUTERS = 28
TOO_OFTEN = b"ask too often"  # the calls of the account in vain took too long
REPORTED = "5"  # the state of a result, in a statement, that was reported
ANSWER = "42"


def call(target: Target, number: int, body: str, ends: bytes = b"<user_name>") -> bytes:
    """Sends a call from the address of a computer of the attacker, again while the bridge is busy, or until a
    reply has some text.
    """
    for _ in range(ATTEMPTS):
        status, reply = asked(target, address_of(HOSTS_ADDRESS + number), "POST", "/cgi", body)
        if status == 200 and (b"<user_name>" in reply or ends in reply):
            return reply
        threading.Event().wait(0.5)
    raise TrialFault(f"a call is not answered: {reply!r}")


def reported_results(target: Target) -> dict[str, int]:
    """Returns by which host of bsched each result was reported, as the statements say."""
    found = dict[str, int]()
    with closing(sqlite3.connect(target.folder / "bridge.db")) as file:
        rows = file.execute("SELECT scheduler_hostid FROM host_file WHERE scheduler_hostid > 0").fetchall()
    for number in [int(row[0]) for row in rows]:
        for result, fields in target.scheduler.statement(number).items():
            if fields[3:4] == [REPORTED] and result != "total":
                through(found.get(result, number) != number, f"two hosts reported {result}")
                found[result] = number
    return found


def check_recorded(target: Target, acknowledged: Iterable[str]) -> None:
    """Ends the attack if bsched does not have each acknowledged report."""
    recorded = reported_results(target)
    lost = [name for name in acknowledged if name not in recorded]
    through(lost, f"{len(lost)} reports were acknowledged and not recorded: {lost[:5]}")


def lose_state_after_burst(target: Target, ending: threading.Event) -> str:
    """Twenty-eight computers attach within a moment and get a job each. The state file is lost, other
    computers attach, and each of the former ones reports with the number that it had.
    """
    target.give("plain", [f"burst{number}" for number in range(COMPUTERS)])

    def begin(number: int) -> tuple[str, list[str]]:
        reply = call(target, number, request(key=ATTACKER, cpid=f"burst{number}", seconds=1))
        return str(value(reply, "hostid")), jobs(reply)

    with ThreadPoolExecutor(20) as pool:
        begun = list(pool.map(begin, range(COMPUTERS)))
    hostids, given = [one[0] for one in begun], [one[1] for one in begun]
    through(len(set(hostids)) < COMPUTERS, "a number is given twice")
    target.kill_bridge()
    for path in target.folder.glob("bridge.db*"):
        path.unlink()
    target.restart_bridge()

    def report(number: int) -> list[str]:
        reports = [(name, ANSWER) for name in given[number]]
        body = request(
            key=ATTACKER, cpid=f"burst{number}", hostid=hostids[number], seqno=1, seconds=0, reports=reports
        )
        return names(call(target, number, body), "result_ack")

    def attach_other(number: int) -> int:
        return attach(target, f"other{number}", 100 + number)

    with ThreadPoolExecutor(20) as pool:
        others = pool.map(attach_other, range(20))
        acknowledged = [name for some in pool.map(report, range(COMPUTERS)) for name in some]
        given_anew = set(map(str, others)) & set(hostids)
    check_recorded(target, acknowledged)
    count = sum(map(len, given))
    seen = f"{count} jobs, {len(acknowledged)} reports acknowledged, all recorded"
    return f"{seen}; {len(given_anew)} numbers given anew"


def count_hosts(target: Target) -> int:
    """Returns how many hosts the attacker's account has."""
    with closing(sqlite3.connect(target.folder / "bridge.db")) as file:
        row = file.execute("SELECT count(*) FROM host WHERE authenticator = ?", (ATTACKER,)).fetchone()
    return int(row[0])


def copy_computer(target: Target, ending: threading.Event) -> str:
    """A computer is copied. The replies to the copy get lost again and again."""
    hostid = attach(target, "original")
    for seqno in range(1, 6):
        call(target, 0, request(key=ATTACKER, cpid="original", hostid=hostid, seqno=seqno, seconds=0))
    numbers = Counter[str]()
    for _ in range(19):  # an old count shows that it is a copy; it never gets the reply
        reply = call(target, 1, request(key=ATTACKER, cpid="original", hostid=hostid, seqno=2, seconds=1))
        numbers[str(value(reply, "hostid"))] += 1
        through(jobs(reply), "a copy gets a job in the reply that gives it a number")
    count = count_hosts(target)
    through(count > 2, f"a copy whose replies get lost makes {count} hosts of the account")
    attach(target, "newcomer", 2)
    seen = f"19 replies gave the copy {len(numbers)} number"
    return f"{seen}; the account has {count} hosts, and a new one attaches"


def copies_in_step(target: Target, ending: threading.Event) -> str:
    """Two copies of a computer count alike, and both report the same jobs."""
    target.give("plain", [f"step{number}" for number in range(5)])
    hostid = attach(target, "twin")
    acknowledged, seqno = list[str](), 0
    for _ in range(5):
        seqno += 1
        body = request(key=ATTACKER, cpid="twin", hostid=hostid, seqno=seqno, seconds=1)
        first, second = call(target, 0, body), call(target, 1, body)
        through(
            set(jobs(first)) & set(jobs(second)) - set(jobs(first)), "copies get different jobs as one host"
        )
        seqno += 1
        for number, given in enumerate((jobs(first), jobs(second))):
            reports = [(name, ANSWER) for name in given]
            body = request(key=ATTACKER, cpid="twin", hostid=hostid, seqno=seqno, seconds=0, reports=reports)
            acknowledged += names(call(target, number, body), "result_ack")
    check_recorded(target, acknowledged)
    return f"{len(acknowledged)} reports of {len(set(acknowledged))} jobs acknowledged, each recorded once"
