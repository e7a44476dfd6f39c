"""Answers the scheduler_requests of clients: reads a request, and writes the reply to it."""
import time
from collections.abc import Callable, Iterable, Iterator
from contextlib import ExitStack
from itertools import chain

from werkzeug.exceptions import HTTPException
from wsgiref.types import WSGIEnvironment

from bsched_files.moments import HOUR

from ..catalogue.contents import Catalogue
from ..common.http_messages import XmlAnswer, blocks_of, length_of
from ..common.key_locks import Busy, KeyLocks
from ..common.languages import asked_language, gettext_lazy
from ..common.limits import NoPlace, Places
from ..people.measurements import Calls, End
from ..people.recent_credit import Recent, RecentCredit
from ..requests.client_requests import MOST_BYTES, ClientRequest, read_request
from ..requests.parts import RequestFault
from .answers import TOO_BUSY, Answered, Exchange, PutOff
from .client_replies import ReplyWriter
from .large_calls import KEY, LargeCalls, Refused, comes_slowly
from .vain_calls import Seconds, VainCalls, is_vain

# Reading the XML of a request takes many times its bytes. A large one waits for its turn before it is read.
LARGE_BYTES, LARGE_SECONDS = 256 * 1024, 5.0
# A call that finds no other thread free waits for so long, but not if bsched gives no answer.
PLACE_SECONDS = 0.5
LOOK_AGAIN_SECONDS = 0.05  # during which the catalogue that a call began with is good enough for its jobs


class RequestReader:
    """Reads requests. Large ones are read one after the other, since anybody can send them, and several at
    once could use up the memory.
    """

    def __init__(self) -> None:
        self.large = KeyLocks(LARGE_SECONDS)

    def read(self, blocks: Iterable[bytes], length: int) -> ClientRequest:
        """Reads a request of a length."""
        if length <= LARGE_BYTES:
            return read_request(blocks)
        with self.large.held("large"):
            return read_request(blocks)


class SchedulerMessages:
    """Answers scheduler_requests."""

    def __init__(
        self,
        exchange: Exchange,
        catalogue: Callable[[], Catalogue],
        writer: ReplyWriter,
        recent: RecentCredit,
        places: Places,
        large: LargeCalls,
        vain: VainCalls,
        calls: Calls | None = None,
    ) -> None:
        self.exchange, self.catalogue, self.writer = exchange, catalogue, writer
        self.recent, self.places, self.large, self.vain = recent, places, large, vain
        self.calls = calls or Calls()
        self.reader = RequestReader()

    def answer(self, environ: WSGIEnvironment) -> XmlAnswer:
        """Answers a scheduler_request, and counts it."""
        end, began = End.FAILED, time.perf_counter()
        try:
            body, end = self._answered(environ, began)
            return XmlAnswer(body)
        except HTTPException:
            end = End.UNREADABLE
            raise
        finally:
            self.calls.record(end, time.perf_counter() - began)

    def _answered(self, environ: WSGIEnvironment, began: float) -> tuple[bytes, End]:
        """Returns the answer to a scheduler_request, and how the call ends. The client always gets a
        scheduler_reply. Of a request that is refused the rest is read, too: a proxy may not read the answer
        before. But of a large one only the front is read, if that is refused.
        """
        length, language = length_of(environ, MOST_BYTES), asked_language(environ)
        blocks: Iterator[bytes] = iter(())
        authenticator, seconds = None, Seconds(self.exchange.scheduler)
        answered: Answered | PutOff
        with ExitStack() as stack:
            try:
                if comes_slowly(stream := environ["wsgi.input"], length):
                    checked = stack.enter_context(self.large.received(stream, length))
                else:
                    blocks = blocks_of(environ, length)
                    checked = self.large.checked(blocks, length)
                with self.places.taken(0.0 if self.exchange.scheduler.is_slow else PLACE_SECONDS):
                    checked, authenticator = with_key(checked)
                    self._check_account(authenticator)
                    asked = self.reader.read(checked, length)
                    if asked.authenticator != authenticator:
                        authenticator = asked.authenticator
                        self._check_account(authenticator)
                    catalogue = self.catalogue()
                    request = catalogue.by_resource(asked)
                    answered = self.exchange.answer(request)
            except RequestFault as fault:
                why = gettext_lazy("Error in request message: %(why)s", why=fault.text)
                answered = PutOff(why, HOUR, end=End.UNREADABLE)
            except Refused as fault:
                answered = fault.put_off
            except (Busy, NoPlace):
                answered = PutOff(TOO_BUSY, self.exchange.retry_delay, end=End.TOO_BUSY)
            for _ in blocks:
                pass
        if isinstance(answered, PutOff) and answered.end in (End.BAD_ACCOUNT, End.NO_ANSWER):
            self.large.strangers.add()
        if authenticator is not None and is_vain(answered):
            self.vain.record(authenticator, seconds.so_far())
        if isinstance(answered, PutOff):
            return self.writer.put_off(answered, language), answered.end
        reply = answered.reply
        recent = self._recent(request.authenticator, reply.hostid)
        if reply.results and time.perf_counter() - began > LOOK_AGAIN_SECONDS:
            catalogue = self.catalogue()  # it may have been edited meanwhile
        self.writer = writer = self.writer.with_catalogue(catalogue)
        body = writer.reply(request, reply, answered.hostid, answered.notice, recent, language)
        return body, End.ANSWERED

    def _check_account(self, authenticator: str | None) -> None:
        """Raises Refused if the calls of an account are put off, or if it was refused just before: an account
        that is barred may call without an end.
        """
        if authenticator is None:
            return
        refused = self.vain.refusal_of(authenticator) or self.exchange.refusal_before_reading(authenticator)
        if refused is not None:
            raise Refused(refused)

    def _recent(self, authenticator: str, scheduler_hostid: int) -> Recent | None:
        """Returns the recent average credit that a reply has; None if the operator has no file of it."""
        if self.recent.path is None:
            return None
        cpids = self.exchange.hosts.cpids(authenticator)
        credits = self.recent.of_each((authenticator, cpid) for cpid in cpids.values())
        own = dict(zip(cpids, credits)).get(scheduler_hostid, 0.0)
        return Recent(sum(credits, 0.0), own)


def with_key(blocks: Iterator[bytes]) -> tuple[Iterator[bytes], str | None]:
    """Returns the blocks of a request, and the account key that is written in the first one, if any."""
    first = next(blocks, b"")
    found = KEY.search(first)
    return chain([first], blocks), None if found is None else found[1].decode()
