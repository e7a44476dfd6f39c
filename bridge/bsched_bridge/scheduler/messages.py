"""Messages to bsched, and what its answers say (docs/PROFILE.md, "The reply", "Refusals" and "HTTP
messages").
"""
import json
import logging
import threading
import time
from dataclasses import dataclass, field, fields, replace
from operator import itemgetter
from typing import Any, NoReturn

from bsched_files.counts import NO_HOST
from bsched_files.file_names import FIRST, result_in_file, workunit_in_file
from bsched_files.project_settings import Address

from .connection import FaultyAnswer, exchanged, message_of

ATTEMPTS = 3
PAUSE_SECONDS = 0.5  # between attempts
UNAVAILABLE, NO_SUCH_HOST, NOT_OPERATOR = "unavailable", "no_such_host", "not_operator"
STATEMENT_BEGINS = b"result,"
WRONG_KEY = "refuses operator_key: it is that of another project, or the key is another one"
HUNG_SECONDS = 5.0  # during which no message is sent, after one had no answer in time
SLOW_SECONDS = 1.0  # after which a message has waited for long; an answer takes milliseconds
MOST_ANSWER = 16 * 1024 * 1024  # bytes

_read = json.JSONDecoder().decode
log = logging.getLogger(__name__)


class NoAnswer(Exception):
    """Raised if bsched gave no answer, or was unavailable. bsched may have acted on the message, so the same
    bytes are sent again.
    """


class Hung(NoAnswer):
    """Raised at once, without a message to bsched, since it let an earlier one wait for too long."""


@dataclass(frozen=True, slots=True)
class Job:
    """A job of a reply."""

    name: str
    wu_name: str
    app_name: str
    platform: str
    version_num: int
    estimate: int
    report_deadline: int
    resent: bool


@dataclass(frozen=True, slots=True)
class Reply:
    """A reply to a call."""

    hostid: int
    user_name: str
    user_total_credit: int
    host_total_credit: int
    request_delay: int
    end_word: str
    result_ack: list[str]
    result_abort: list[str]
    results: list[Job]
    rpc_seqno: int
    # what the bridge adds: the name of the user's team, and the user's preferences, as they are stored
    team_name: str | None = None
    preferences: str | None = None


@dataclass(frozen=True, slots=True)
class Refusal:
    """A refusal: the name of its error, and its other members."""

    error: str
    members: dict[str, Any] = field(default_factory=dict)


# The members that the bridge knows, in the order of the fields. A newer bsched may send more of them.
members_of_job = itemgetter(*(member.name for member in fields(Job)))
members_of_reply = itemgetter(
    *(member.name for member in fields(Reply) if member.name not in ("team_name", "preferences"))
)


def read_reply(response: dict[str, Any]) -> Reply:
    """Returns the reply in a JSON object. Raises KeyError or TypeError if a member is missing."""
    jobs = [Job(*members_of_job(job)) for job in response["results"]]
    return Reply(*members_of_reply({**response, "results": jobs}))


def reply_in_file(reply: Reply, file: int) -> Reply:
    """Returns a reply of a file with the names by which clients know its workunits and results."""
    if file == FIRST:
        return reply
    jobs = [
        replace(job, name=result_in_file(job.name, file), wu_name=workunit_in_file(job.wu_name, file))
        for job in reply.results
    ]
    acknowledged = [result_in_file(name, file) for name in reply.result_ack]
    aborted = [result_in_file(name, file) for name in reply.result_abort]
    return replace(reply, result_ack=acknowledged, result_abort=aborted, results=jobs)


def statement_in_file(statement: str, file: int) -> str:
    """Returns a statement of a file with the names by which clients know its results. Its first line is the
    header, and the line of the total has no name.
    """
    if file == FIRST:
        return statement
    head, *lines = statement.split("\n")
    for place, line in enumerate(lines):
        name, comma, rest = line.partition(",")
        if "_" in name:
            lines[place] = f"{result_in_file(name, file)}{comma}{rest}"
    return "\n".join([head, *lines])


def read_refusal(status: int, body: object) -> Refusal:
    """Returns the refusal in a JSON object. Raises NoAnswer if it is none, or says that bsched was
    unavailable.
    """
    error = body.get("error") if isinstance(body, dict) else None
    if not isinstance(body, dict) or not isinstance(error, str):
        raise NoAnswer(f"status {status} with a body that is no answer of bsched")
    if error == UNAVAILABLE:
        raise NoAnswer(error)
    return Refusal(error, {name: value for name, value in body.items() if name != "error"})


class Share(threading.local):
    """How many seconds of bsched the messages of a thread took."""

    seconds = 0.0


class Scheduler:
    """Sends messages to bsched. Each message has a connection of its own, as bsched requires.

    If bsched lets a message wait for answer_seconds, the next ones would do so, too, and hold all threads of
    the bridge. So for HUNG_SECONDS they fail at once. Then one message shows whether bsched answers again.

    With the operator's key it first asks whether what has the port knows that key. Otherwise it may be the
    scheduler of another project, whose jobs would go to this one's computers. It asks again after each
    message without an answer, since another program may have the port then.

    bsched serves a file of the project. Replies and statements have the names by which clients know its
    workunits and results, which say the number of the file.
    """

    def __init__(
        self, address: Address, answer_seconds: int, operator_key: str | None = None, file: int = FIRST
    ) -> None:
        self.address, self.answer_seconds, self.file = address, answer_seconds, file
        self.silent_since: float | None = None  # since when bsched gives no answer; None after an answer
        self._key_to_check, self._is_checked = operator_key, operator_key is None
        self._lock = threading.Lock()
        self._hung_until: float | None = None  # a moment of the monotonic clock; None after an answer
        self._is_probed = False  # whether the message that shows whether bsched answers again is on its way
        self._began: dict[int, float] = {}  # when each message was sent that waits for its answer
        self._share = Share()

    @property
    def seconds_of_thread(self) -> float:
        """How many seconds of bsched the messages of this thread took so far. bsched answers one message
        after the other. So of the time that a message waits with others it took one part of as many.
        """
        return self._share.seconds

    @property
    def is_slow(self) -> bool:
        """Whether bsched gives no answer, or a message has waited for an answer for some time."""
        with self._lock:
            oldest = min(self._began.values(), default=None)
        is_old = oldest is not None and time.monotonic() - oldest > SLOW_SECONDS
        return is_old or self.silent_since is not None

    def _begin_to_wait(self) -> tuple[int, bool, int]:
        """Counts a message that waits for its answer. Returns its number, whether it shows whether bsched
        answers again, and how many messages wait now. Raises Hung if no message is to be sent now.
        """
        with self._lock:
            now, is_probe = time.monotonic(), self._hung_until is not None
            if self._hung_until is not None and (self._is_probed or now < self._hung_until):
                raise Hung("an earlier message had no answer in time")
            self._is_probed = is_probe
            number = max(self._began, default=0) + 1
            self._began[number] = now
            waiting = len(self._began)
        return number, is_probe, waiting

    def _end_to_wait(self, number: int, is_probe: bool, waiting: int) -> None:
        """Counts a message no more, and which part of bsched's time it took."""
        with self._lock:
            began = self._began.pop(number)
            self._is_probed = self._is_probed and not is_probe
        self._share.seconds += (time.monotonic() - began) / waiting

    def message(
        self, method: str, path: str, body: bytes | None = None, fields: dict[str, str] | None = None
    ) -> tuple[int, bytes]:
        """Returns the status and the body of the answer to a message. Raises NoAnswer if bsched says that it
        has none.
        """
        try:
            number, is_probe, waiting = self._begin_to_wait()
            try:
                if not self._is_checked:
                    self._check_key()
                status, answer = self._exchange(method, path, body, fields or {})
            finally:
                self._end_to_wait(number, is_probe, waiting)
            if len(answer) > MOST_ANSWER:
                self._refuse_too_long(method, path)
            if status >= 500:
                raise NoAnswer(f"status {status}")
        except NoAnswer:
            self.silent_since = self.silent_since or time.time()
            self._is_checked = self._key_to_check is None
            raise
        self.silent_since = None
        return status, answer

    def _check_key(self) -> None:
        """Asks whether bsched knows the operator's key. If it does not, nothing else is sent to it."""
        if not self.knows_key(self._key_to_check or ""):
            log.error("the scheduler at %s:%d %s", self.address.host, self.address.port, WRONG_KEY)
            raise NoAnswer(WRONG_KEY)
        self._is_checked = True

    def knows_key(self, operator_key: str) -> bool:
        """Returns whether bsched knows an operator's key. It asks for the statement of a host that does not
        exist. Raises NoAnswer if nobody answers, or another program does.
        """
        fields = {"x-operator-key": operator_key}
        status, body = self._exchange("GET", f"/hosts/{NO_HOST}", None, fields)
        if status == 200 and body.startswith(STATEMENT_BEGINS):
            return True
        try:
            response = json.loads(body)
        except ValueError:
            response = None
        refusal = read_refusal(status, response)
        if refusal.error not in (NO_SUCH_HOST, NOT_OPERATOR):
            raise NoAnswer(f"status {status} with a body that is no answer of bsched")
        return refusal.error == NO_SUCH_HOST

    def _exchange(
        self, method: str, path: str, body: bytes | None, fields: dict[str, str]
    ) -> tuple[int, bytes]:
        """Returns the status of the answer, and at most MOST_ANSWER + 1 bytes of its body."""
        message = message_of(self.address, method, path, body, fields)
        try:
            answer = exchanged(self.address, message, self.answer_seconds, MOST_ANSWER)
        except TimeoutError:
            self._hung_until = time.monotonic() + HUNG_SECONDS
            raise NoAnswer("no answer in time") from None
        except (OSError, FaultyAnswer) as error:
            self._hung_until = None
            raise NoAnswer(str(error) or type(error).__name__) from None
        self._hung_until = None
        return answer

    def _refuse_too_long(self, method: str, path: str) -> NoReturn:
        """Refuses an answer of which only a part was read."""
        log.error(
            "the answer of bsched to %s %s is longer than %d bytes, and is not used",
            method,
            path,
            MOST_ANSWER,
        )
        raise NoAnswer(f"an answer longer than {MOST_ANSWER} bytes")

    def call_once(self, body: bytes) -> Reply | Refusal:
        """Sends a call once, and returns the answer."""
        status, answer = self.message("POST", "/scheduler", body, {"content-type": "application/json"})
        try:
            response = _read(answer.decode())
            if status == 200:
                return reply_in_file(read_reply(response), self.file)
        except (ValueError, KeyError, TypeError, AttributeError):
            raise NoAnswer(f"status {status} with a body that is no answer of bsched") from None
        return read_refusal(status, response)

    def call(self, body: bytes) -> Reply | Refusal:
        """Returns the answer to a call. If none comes, the same bytes are sent again, a few times and within
        a bounded time.
        """
        ends = time.monotonic() + self.answer_seconds
        for attempt in range(1, ATTEMPTS + 1):
            try:
                return self.call_once(body)
            except Hung:
                raise
            except NoAnswer as failure:
                log.warning("no answer of bsched at %s:%d: %s", self.address.host, self.address.port, failure)
                if attempt == ATTEMPTS or time.monotonic() > ends or self._hung_until is not None:
                    raise
            time.sleep(PAUSE_SECONDS)
        raise AssertionError("the last attempt returns or raises")

    def import_accounts(self, batch: str, text: bytes, operator_key: str) -> Refusal | None:
        """Imports accounts. Returns the refusal, or None if bsched has them."""
        fields = {"x-operator-key": operator_key, "content-type": "text/csv"}
        status, answer = self.message("POST", f"/import/accounts/{batch}", text, fields)
        try:
            response = json.loads(answer)
        except ValueError:
            raise NoAnswer(f"status {status} with a body that is no answer of bsched") from None
        if status != 200:
            return read_refusal(status, response)
        if not isinstance(response, dict) or response.get("batch") != batch:
            raise NoAnswer("the answer is not that to the import")
        return None

    def statement(self, hostid: int, operator_key: str) -> str | None:
        """Returns the statement of a host, or None if bsched refuses it."""
        status, answer = self.message("GET", f"/hosts/{hostid}", None, {"x-operator-key": operator_key})
        return statement_in_file(answer.decode(errors="replace"), self.file) if status == 200 else None

    # The next two functions send a call that changes nothing. If the host's number is not the one in the
    # call, bsched refuses the call as bad_host. It does so only after it has found the account. No host ever
    # had a call of number 0. So if the host has the number in the call, bsched refuses the call as stale.

    def has_account(self, authenticator: str) -> bool:
        """Returns whether an account exists."""
        answer = self.call_once(asking_call(authenticator, "none", NO_HOST))
        return isinstance(answer, Refusal) and answer.error == "bad_host"

    def has_host(self, authenticator: str, host_cpid: str, hostid: int) -> bool:
        """Returns whether a host exists with this key and this number."""
        answer = self.call_once(asking_call(authenticator, host_cpid, hostid))
        return isinstance(answer, Refusal) and answer.error in ("stale", "reused")


def asking_call(authenticator: str, host_cpid: str, hostid: int) -> bytes:
    """Returns a call that changes nothing."""
    record = {
        "authenticator": authenticator,
        "hostid": hostid,
        "rpc_seqno": 0,
        "platform_name": "none",
        "host_info": {"host_cpid": host_cpid, "p_fpops": 1, "m_nbytes": 0, "d_free": 0},
    }
    return json.dumps(record).encode()
