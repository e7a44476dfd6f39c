"""Honest volunteers, who call, upload and look at pages while somebody attacks. They are a process of their
own, so attackers in this one do not slow them down.
"""
import http.client
import multiprocessing
import time
from collections.abc import Callable
from concurrent.futures import ThreadPoolExecutor
from multiprocessing.connection import Connection

from messages import request, value
from trial.programs import TrialFault
from uploading import upload

from .figures import Served
from .sending import asked
from .target import GOOD, HONEST, Target, address_of

PAUSE_SECONDS = 0.15  # between two messages of a kind
FILE_BYTES = 10_000
FILES = 120  # that the volunteers of a trial can upload
FIRST_ADDRESS = 5000  # volunteers have other addresses than attackers
HOST = "honest"


class Volunteers:
    """Honest volunteers. Each has an account, a computer and an address."""

    def __init__(self, target: Target) -> None:
        self.target = target
        self.counts = {key: 1 for key in GOOD}  # of the calls of each
        self.hostids = {key: self._first_call(key) for key in GOOD}
        each = FILES // len(GOOD)
        files = [target.hand_out(key, each, HOST, prefix=HONEST) for key in GOOD]
        self.files = [name for names in zip(*files) for name in names]
        self.turns = {"calls": 0, "uploads": 0, "pages": 0}

    def _first_call(self, key: str) -> str:
        """Has a volunteer's computer attach. Returns its number."""
        for _ in range(20):
            body = request(key=key, cpid=HOST, seconds=0)
            _, reply = asked(self.target, self._address(key), "POST", "/cgi", body)
            if (hostid := value(reply, "hostid")) is not None:
                return str(hostid)
            time.sleep(0.2)
        raise TrialFault(f"a volunteer's computer gets no number: {reply!r}")

    def _address(self, key: str) -> str:
        return address_of(FIRST_ADDRESS + GOOD.index(key))

    def call(self) -> tuple[bool, str]:
        """Has a volunteer's computer call. Returns whether it was served, and what it got."""
        key = GOOD[self.turns["calls"] % len(GOOD)]
        self.turns["calls"] += 1
        self.counts[key] += 1
        body = request(
            key=key, cpid=HOST, hostid=self.hostids[key], seqno=self.counts[key], seconds=0, listed=None
        )
        status, reply = asked(self.target, self._address(key), "POST", "/cgi", body)
        return status == 200 and b"<user_name>" in reply, f"{status} {reply[:400]!r}"

    def upload(self) -> tuple[bool, str]:
        """Has a volunteer's computer upload a file. Returns whether it was taken, and what the answer was."""
        turn = self.turns["uploads"]
        self.turns["uploads"] += 1
        name, tokens = self.files[turn % len(self.files)], self.target.tokens
        most = self.target.most
        body = upload(name, bytes(FILE_BYTES), tokens.token(name, most), most)
        address = self._address(GOOD[turn % len(GOOD)])
        status, answer = asked(self.target, address, "POST", self.target.url_of(name), body)
        return status == 200 and b"<status>0</status>" in answer, f"{status} {answer!r}"

    def page(self) -> tuple[bool, str]:
        """Has somebody look at the project's page."""
        turn = self.turns["pages"]
        self.turns["pages"] += 1
        address = self._address(GOOD[turn % len(GOOD)])
        status, body = asked(self.target, address, "GET", "/")
        return status == 200 and b"</html>" in body, str(status)

    def serve(self, seconds: float) -> dict[str, Served]:
        """Has all volunteers send messages for some seconds. Returns how they were answered."""
        acts: dict[str, Callable[[], tuple[bool, str]]] = {
            "calls": self.call,
            "uploads": self.upload,
            "pages": self.page,
        }
        ends = time.monotonic() + seconds

        def act(kind: str) -> Served:
            served = Served()
            while time.monotonic() < ends:
                began = time.monotonic()
                try:
                    is_good, fault = acts[kind]()
                except (OSError, http.client.HTTPException) as error:
                    is_good, fault = False, repr(error)
                served.record(is_good, time.monotonic() - began, fault)
                time.sleep(PAUSE_SECONDS)
            return served

        with ThreadPoolExecutor(len(acts)) as pool:
            return dict(zip(acts, pool.map(act, acts)))


def live(volunteers: Volunteers, orders: Connection) -> None:
    """Is the process of the volunteers: it serves for as many seconds as it gets, until it gets none."""
    while seconds := orders.recv():
        orders.send(volunteers.serve(seconds))


class Process:
    """The process of the volunteers. It begins before the attackers do."""

    def __init__(self, volunteers: Volunteers) -> None:
        self._orders, other = multiprocessing.Pipe()
        self._process = multiprocessing.Process(target=live, args=(volunteers, other), daemon=True)
        self._process.start()

    def served(self, seconds: float, more_seconds: float = 600) -> dict[str, Served]:
        """Has the volunteers send messages for some seconds. Returns how they were answered."""
        self._orders.send(seconds)
        if not self._orders.poll(seconds + more_seconds):
            raise TrialFault("the honest volunteers do not end")
        found: dict[str, Served] = self._orders.recv()
        return found

    def end(self) -> None:
        """Ends the process."""
        self._orders.send(0)
        self._process.join(30)
        self._process.kill()
