"""Calls in vain: those that bring their client neither a job nor the acknowledgement of a report.

An account can send them without an end, from many addresses. So the seconds that they take of a processor are
counted for each account. Once they are `vain_seconds` of the last minute, the calls of the account are put
off before their XML is read. A call that is put off counts no more, so within a minute the account is served
again. A client loses nothing: it reports later.
"""
import logging
import threading
import time
from collections.abc import Callable

from ..common.languages import gettext_noop
from ..common.limits import RecentCounts, UsedSeconds
from ..common.words import shown_key
from ..people.measurements import End
from ..scheduler.messages import Scheduler
from .answers import Answered, PutOff

MINUTE, PART_SECONDS = 60, 5
TOO_OFTEN = gettext_noop(
    "The computers of your account ask too often at the moment. They ask again in some minutes."
)
# What the client is not to blame for, and calls of accounts that somebody made up: nobody has these.
NOT_COUNTED = frozenset({End.NO_ANSWER, End.TOO_BUSY, End.TOO_OFTEN, End.BAD_ACCOUNT})

log = logging.getLogger(__name__)


def is_vain(answered: Answered | PutOff) -> bool:
    """Returns whether an answer brings its client neither a job nor an acknowledgement."""
    if isinstance(answered, PutOff):
        return answered.end not in NOT_COUNTED
    return not (answered.reply.results or answered.reply.result_ack)


class Seconds:
    """The seconds of a processor that this thread took since it was made, with bsched's part."""

    def __init__(self, scheduler: Scheduler) -> None:
        self._scheduler = scheduler
        self._own, self._scheduled = time.thread_time(), scheduler.seconds_of_thread

    def so_far(self) -> float:
        """Returns the seconds."""
        return time.thread_time() - self._own + self._scheduler.seconds_of_thread - self._scheduled


class VainCalls:
    """Counts the seconds of calls in vain, and puts calls off."""

    def __init__(
        self, most_seconds: Callable[[], int], delay: int, clock: Callable[[], float] = time.monotonic
    ) -> None:
        self.most_seconds, self._lock = most_seconds, threading.Lock()
        self._used = UsedSeconds(clock, PART_SECONDS, MINUTE // PART_SECONDS)
        self._logged = RecentCounts(1, MINUTE, clock)  # a line in a minute for an account
        self._put_off = PutOff(TOO_OFTEN, max(MINUTE, delay), end=End.TOO_OFTEN)

    def refusal_of(self, authenticator: str) -> PutOff | None:
        """Returns what a client reads if the calls of its account are put off, or else None."""
        most = self.most_seconds()
        with self._lock:
            if self._used.of(authenticator) < most:
                return None
        if self._logged.take(authenticator):
            text = (
                "account %s: its calls are put off: those in vain took %d seconds of a processor in a minute"
            )
            log.warning(text, shown_key(authenticator), most)
        return self._put_off

    def record(self, authenticator: str, seconds: float) -> None:
        """Counts the seconds that a call in vain took."""
        with self._lock:
            self._used.add(authenticator, seconds)
