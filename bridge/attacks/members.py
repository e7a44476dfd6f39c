"""What an account does that means harm, or that somebody else uses."""
import threading
import time
from collections import Counter
from concurrent.futures import ThreadPoolExecutor

from messages import request, value
from trial.programs import TrialFault
from uploading import upload

from .attack import through
from .sending import asked, drip_uploads, over_and_over
from .target import ATTACKER, MOST_ACCOUNT_BYTES, Target, address_of

HOSTS_ADDRESS = 900  # the first of the addresses from which the attacker's computers attach
ATTEMPTS = 60  # of a call that must be answered, while the bridge is busy


def attach(target: Target, cpid: str, number: int = 0, key: str = ATTACKER, seconds: int = 0) -> int:
    """Has a computer of an account attach. Returns its number."""
    body = request(key=key, cpid=cpid, seconds=seconds)
    for _ in range(ATTEMPTS):
        _, reply = asked(target, address_of(HOSTS_ADDRESS + number), "POST", "/cgi", body)
        if (hostid := value(reply, "hostid")) is not None:
            return int(hostid)
        time.sleep(0.5)
    raise TrialFault(f"a computer gets no number: {reply!r}")


def send_file(target: Target, address: str, name: str, nbytes: int, path: str | None = None) -> str:
    """Uploads a file of zeros. Returns the status in the answer, or that of HTTP."""
    body = upload(name, bytes(nbytes), target.tokens.token(name, target.most), target.most)
    status, answer = asked(target, address, "POST", path or target.url_of(name), body)
    return answer.partition(b"<status>")[2].partition(b"<")[0].decode() if status == 200 else str(status)


# ---- Uploads


def fill_folder(target: Target, ending: threading.Event) -> str:
    """Uploads the files of 500 jobs, 1 MB each, into a folder that has room for 300, and goes on."""
    names = iter(target.hand_out(ATTACKER, 500) * 1000)
    lock = threading.Lock()

    def act(number: int) -> str:
        with lock:
            name = next(names)
        return send_file(target, address_of(number), name, 1_000_000)

    found = over_and_over(ending, 4, act)
    used = target.pending_bytes(ATTACKER)
    through(used > MOST_ACCOUNT_BYTES, f"the account has {used:,} bytes of {MOST_ACCOUNT_BYTES:,}")
    return f"{dict(found)}; the account has {used:,} of {MOST_ACCOUNT_BYTES:,} bytes"


def drip_own_uploads(target: Target, ending: threading.Event) -> str:
    """Begins 32 uploads by URLs of its own jobs, from four addresses, and sends a byte of each now and
    then.
    """
    paths = [target.url_of(name) for name in target.hand_out(ATTACKER, 32)]
    seen = drip_uploads(target, ending, paths)
    held = int(seen.partition("for ")[2].partition(" ")[0])
    through(held > 8, f"the account keeps more than 8 places: {seen}")
    return seen


def use_ended_tokens(target: Target, ending: threading.Event) -> str:
    """Uploads files of jobs that it has reported as errors, and of a barred account."""
    names = target.hand_out(ATTACKER, 40)
    target.end_jobs(names[:20])
    found = Counter(send_file(target, address_of(0), name, 10_000) for name in names[:10])
    body = request(key=ATTACKER, cpid="c0", seconds=0)
    asked(target, address_of(0), "POST", "/cgi", body)
    bar(target)
    while send_file(target, address_of(1), names[20], 100) == "0" and not ending.wait(0.5):
        pass  # the bridge reads the settings again within seconds
    barred = Counter(send_file(target, address_of(2), name, 10_000) for name in names[21:31])
    through(found.keys() != {"-1"}, f"files of reported jobs: {dict(found)}")
    through(barred.keys() != {"-1"}, f"files of a barred account: {dict(barred)}")
    return f"of reported jobs {dict(found)}, of a barred account {dict(barred)}"


def upload_at_once(target: Target, ending: threading.Event) -> str:
    """Uploads files of 19 MB from three addresses, 24 at once."""
    names = target.hand_out(ATTACKER, 24, "one")

    def act(number: int) -> str:
        return send_file(target, address_of(number % 3), names[number], 19_000_000)

    return str(dict(over_and_over(ending, 24, act)))


# ---- Calls


def ask_in_vain(target: Target, ending: threading.Event) -> str:
    """A computer asks for work and gets none, from 16 addresses at once, as often as nginx lets them."""
    hostids = [attach(target, f"vain{number}", number) for number in range(8)]
    counts, lock = Counter[int](), threading.Lock()

    def act(number: int) -> str:
        host = number % 8
        with lock:
            counts[host] += 1
            seqno = counts[host]
        body = request(key=ATTACKER, cpid=f"vain{host}", hostid=hostids[host], seqno=seqno, seconds=86400)
        status, reply = asked(target, address_of(number), "POST", "/cgi", body)
        return "served" if b"<user_name>" in reply else f"{status} put off" if status == 200 else str(status)

    return str(dict(over_and_over(ending, 16, act, 0.02)))


def send_unreadable(target: Target, ending: threading.Event) -> str:
    """Sends calls with its own key that can't be read, each as dear as it can be, from 16 addresses."""
    body = request(key=ATTACKER, cpid="c") + "<a/>" * 60_000

    def act(number: int) -> str:
        status, reply = asked(target, address_of(number), "POST", "/cgi", body)
        through(b"<user_name>" in reply, "a message that can't be read is served")
        return str(status)

    return str(dict(over_and_over(ending, 16, act, 0.02)))


def bar(target: Target) -> None:
    """Bars the attacker's account."""
    settings = target.folder / "bridge.toml"
    settings.write_text(f'barred = ["{ATTACKER}"]\n{settings.read_text()}')


def call_barred(target: Target, ending: threading.Event, addresses: int = 16) -> str:
    """Sends calls of an account that is barred, from so many addresses."""
    turns = iter(range(10**9))

    def act(number: int) -> str:
        body = request(key=ATTACKER, cpid=f"barred{next(turns)}", seconds=60)
        status, reply = asked(target, address_of(number % addresses), "POST", "/cgi", body)
        through(b"<user_name>" in reply, "a computer of a barred account is served")
        return str(status)

    found = over_and_over(ending, 16, act, 0.02)
    lines = target.bridge_log().count(" is refused: ")
    through(lines > 10, f"the log has {lines} lines about the account")
    return f"{dict(found)}; the log has {lines} lines about it"


def attach_many(target: Target, ending: threading.Event) -> str:
    """Attaches computers without an end."""
    turns = iter(range(10**9))

    def act(number: int) -> str:
        turn = next(turns)
        body = request(key=ATTACKER, cpid=f"many{turn}", seconds=0)
        status, reply = asked(target, address_of(number), "POST", "/cgi", body)
        return (
            "attached" if b"<user_name>" in reply else f"{status} put off" if status == 200 else str(status)
        )

    found = over_and_over(ending, 16, act, 0.02)
    through(found["attached"] > 100, f"the account has {found['attached']} computers, and may have 100")
    return str(dict(found))


def attach_some(target: Target, count: int, prefix: str) -> list[int]:
    """Has computers of the attacker attach, all at once. Returns their numbers."""
    with ThreadPoolExecutor(20) as pool:
        return list(pool.map(lambda number: attach(target, f"{prefix}{number}", number), range(count)))
