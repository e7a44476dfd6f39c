"""One request of a client and its answer.

A request becomes a call under the next number of its key. The call's bytes are on the disk before they are
sent, and stay there until an answer comes. Until then the next request of the key sends them again first, and
so does the resending of open calls. bsched then answers with its kept reply. The jobs of such a late answer
are kept in hand for the client's next reply.

Nor does the bridge know whether a reply reaches its client, which may have gone. So the jobs of a reply stay
in hand, too, until the client's next request. If its list lacks one of them, the job goes out once more. A
client that sends no list can't say what it lacks, so none of its jobs goes out twice.
"""
import logging
import threading
from collections import OrderedDict
from collections.abc import Callable, Iterable
from dataclasses import dataclass, replace
from typing import TypeVar

from bsched_files.moments import DAY, HOUR
from bsched_files.project_settings import HostRules

from ..common.key_locks import Busy, KeyLocks
from ..common.languages import Text, gettext_noop, ngettext_lazy
from ..common.limits import RecentCounts
from ..common.words import shown_key
from ..people.archives import Archives
from ..people.barring import Barred, Barring
from ..people.held_back import HeldBack
from ..people.hosts import Hosts, Key
from ..people.measurements import End, Reports
from ..requests.calls import call_text, of_file
from ..requests.client_requests import ClientRequest, Report
from ..scheduler.messages import Job, NoAnswer, Refusal, Reply, Scheduler
from ..uploads.report_checks import ReportChecks
from .host_search import HostSearch, TooManySearches
from .host_states import (
    AccountState,
    ClientState,
    CountEnded,
    HostState,
    HostStates,
    StateChanged,
    TooManyHosts,
)

COUNT_ATTEMPTS = 3  # calls of one request, if bsched's count is ahead or it has lost the account
STATE_ATTEMPTS = 3  # of a request whose host's state has changed, though its key is held
MOST_CPIDS = 20_000  # host_cpids that hosts may have besides their own, of which the bridge knows
LOG_SECONDS = 60.0  # between two lines of the log about refused hosts of one account
END_SECONDS = 60.0  # for the message that is being sent at the end

log = logging.getLogger(__name__)


@dataclass(frozen=True, slots=True)
class PutOff:
    """What a client reads whose request is put off, and for how long it is put off."""

    message: Text | str  # is translated when the reply is written; bridge/extract_texts finds it
    delay: int
    priority: str = "low"  # the client shows a "notice" to the volunteer
    is_down: bool = False  # the project is down: the client leaves all as it was, and asks again later
    end: End = End.OTHER  # how the call is counted


@dataclass(frozen=True, slots=True)
class Answered:
    """The reply to a request."""

    reply: Reply
    hostid: int | None = None  # the number that the client gets, if it did not send it
    notice: Text | str | None = None  # what the volunteer reads


NO_ANSWER = gettext_noop("The project's scheduler gives no answer at the moment.")
BUSY = gettext_noop("Another scheduler instance is running for this host.")
TOO_BUSY = gettext_noop("The project is busy at the moment.")
REFUSALS = {
    "bad_account": PutOff(
        "Invalid or missing account key. To fix this, remove and add this project.",
        DAY,
        "notice",
        end=End.BAD_ACCOUNT,
    ),
    "hosts_full": PutOff("This project takes no more computers.", DAY, "notice", end=End.HOSTS_FULL),
    "bad_member": PutOff(
        "The project can't read what this computer says about itself.", DAY, "notice", end=End.BAD_MEMBER
    ),
    "bad_json": PutOff("The project can't read this request.", HOUR, end=End.BAD_JSON),
    "too_large": PutOff("This request is too large for the project.", HOUR, end=End.TOO_LARGE),
}
OTHER_REFUSAL = PutOff("The project's scheduler refused this request.", HOUR)
COUNT_ENDED = PutOff(
    "This computer has called so often that the project has no number left for it. Remove and add it.",
    DAY,
    "notice",
    end=End.COUNT_ENDED,
)
BARRED = PutOff(
    "The project's operator has barred this account. Ask the operator why.", DAY, "notice", end=End.BARRED
)
DELETED = PutOff(
    "This account was deleted. Remove the project, or join it with a new account.",
    DAY,
    "notice",
    end=End.DELETED,
)


def put_off_by(refusal: Refusal) -> PutOff:
    """Returns what a client reads after a refusal."""
    put_off = REFUSALS.get(refusal.error, OTHER_REFUSAL)
    member = refusal.members.get("member")
    return with_detail(put_off, member) if member else put_off


def with_detail(put_off: PutOff, detail: str) -> PutOff:
    """Returns the same with something in brackets after the message, which is not translated."""
    message = put_off.message if isinstance(put_off.message, Text) else Text(put_off.message)
    return replace(put_off, message=Text("%(message)s (%(detail)s)", {"message": message, "detail": detail}))


def too_many_hosts(count: int) -> PutOff:
    """Returns what a client reads whose account has as many hosts as it may have."""
    return PutOff(
        ngettext_lazy(
            "Your account has %(count)s computers at this project, and may have no more. This computer gets "
            "no work here.",
            "Your account has %(count)s computers at this project, and may have no more. This computer gets "
            "no work here.",
            count,
        ),
        DAY,
        "notice",
        end=End.TOO_MANY_HOSTS,
    )


def not_taken(names: list[str]) -> Text:
    """Returns what a volunteer reads whose results no known host has."""
    return ngettext_lazy(
        "The project can't tell which computer got %(name)s, so it does not take %(count)s finished tasks "
        "yet. If this stays so for days, remove and add the project.",
        "The project can't tell which computer got %(name)s, so it does not take %(count)s finished tasks "
        "yet. If this stays so for days, remove and add the project.",
        len(names),
        name=names[0],
    )


# the key of a client, or None if it is a new host under another key, and the host that has each result
Found = tuple[Key | None, dict[str, Key]]
Returned = TypeVar("Returned")


class KnownPairs:
    """Pairs of a host and a host_cpid that its client may have, as many as were found last."""

    def __init__(self, most: int) -> None:
        self.most, self._lock = most, threading.Lock()
        self._pairs: OrderedDict[tuple[Key, str], None] = OrderedDict()

    def has(self, pair: tuple[Key, str]) -> bool:
        """Returns whether a pair is known."""
        with self._lock:
            return pair in self._pairs

    def add(self, pair: tuple[Key, str]) -> None:
        """Adds a pair. If there are too many, the oldest one is forgotten."""
        with self._lock:
            self._pairs[pair] = None
            if len(self._pairs) > self.most:
                self._pairs.popitem(last=False)


class Exchange:
    """Answers requests."""

    def __init__(
        self,
        hosts: Hosts,
        states: HostStates,
        scheduler: Scheduler,
        retry_delay: int,
        rules: Callable[[], HostRules],
        search: HostSearch,
        barring: Barring,
        import_again: Callable[[str], bool],
        archives: Archives,
        reports: ReportChecks | None = None,
        contact: str | None = None,
        counted: Reports | None = None,
        held_back: HeldBack | None = None,
    ):
        self.hosts, self.states, self.scheduler, self.search = hosts, states, scheduler, search
        self.retry_delay, self.rules, self.barring, self.contact = retry_delay, rules, barring, contact
        self.reports = reports  # None if no application has output files
        self.import_again = import_again  # imports an account again that bsched has lost
        self.archives = archives
        self.counted, self.held_back = counted or Reports(), held_back or HeldBack()
        self._locks = KeyLocks(wait_seconds=2 * scheduler.answer_seconds)
        self._cpids = KnownPairs(MOST_CPIDS)
        self._logged = RecentCounts(1, LOG_SECONDS)  # accounts whose hosts were refused lately
        self._logged_files = RecentCounts(1, LOG_SECONDS)  # those with results of other files

    def answer(self, request: ClientRequest) -> Answered | PutOff:
        """Returns the reply to a request, with the jobs that were in hand. If the request is put off, returns
        why and for how long.

        Results of other files of the project are not reported, so the client keeps them. Nor are those that
        it lists aborted.
        """
        mine, others = of_file(request, self.scheduler.file)
        answered = self._answer(mine)
        if not others:
            return answered
        if self._logged_files.take(request.authenticator):
            key = shown_key(request.authenticator)
            log.warning("account %s reports %r, which is of another file", key, others[0])
        return replace(answered, notice=not_taken(others)) if isinstance(answered, Answered) else answered

    def _answer(self, request: ClientRequest) -> Answered | PutOff:
        """Returns the reply to a request that has no names of other files."""
        known = self.states.of_number(request.authenticator, request.hostid)
        reason = self.barring.reason(request.authenticator) if known is None else known.barred
        refused = self._refused(request.authenticator, reason)
        if refused is not None:
            self._log_refused(request, "deleted" if refused is DELETED else "barred")
            return refused
        try:
            if known is not None and request.rpc_seqno >= known.client_seqno:
                other = self._of_another(request, known)
                if other is not None:
                    return other
                reply = self._call(known.key, request, ClientState(seqno=request.rpc_seqno), known)
                if isinstance(reply, PutOff):
                    return reply
                notice = self.held_back.notice(known.key, request) if self.rules().holds_back else None
                return Answered(reply, notice=notice)
            with self._locks.held((request.authenticator, request.hostid, request.host_cpid)):
                return self._of_unknown(request, known)
        except NoAnswer:
            return PutOff(NO_ANSWER, self.retry_delay, is_down=True, end=End.NO_ANSWER)
        except Busy:
            return PutOff(BUSY, self.retry_delay, end=End.BUSY)
        except TooManySearches:
            return PutOff(TOO_BUSY, self.retry_delay, end=End.TOO_BUSY)
        except CountEnded:
            return COUNT_ENDED

    def refusal_of(self, authenticator: str) -> PutOff | None:
        """Returns what a client reads whose account is refused or does not exist, or None for other accounts.
        If that can't be known now, its call is put off.
        """
        refused = self._refused(authenticator, self.barring.reason(authenticator))
        if refused is not None or self.states.knows_account(authenticator):
            return refused
        try:
            return None if self.scheduler.has_account(authenticator) else put_off_by(Refusal("bad_account"))
        except NoAnswer:
            return PutOff(NO_ANSWER, self.retry_delay, is_down=True, end=End.NO_ANSWER)

    def refusal_before_reading(self, authenticator: str) -> PutOff | None:
        """Returns what a client reads whose account is refused, if a host of the account was refused within
        the last minute, or else None. So only such an account is looked up twice.
        """
        if not self._logged.has(authenticator):
            return None
        return self._refused(authenticator, self.barring.reason(authenticator))

    def _log_refused(self, host: ClientRequest | Key, why: str) -> None:
        """Logs that a host is refused: one line in a minute for an account, whose hosts may call without an
        end.
        """
        if self._logged.take(host.authenticator):
            text = "host %s of account %s is refused: %s"
            log.warning(text, host.host_cpid, shown_key(host.authenticator), why)

    def _refused(self, authenticator: str, reason: Barred | None) -> PutOff | None:
        """Returns what a client of a barred or a deleted account reads, or None for other accounts."""
        if reason is Barred.DELETED:
            return DELETED
        is_barred = reason is not None or authenticator in self.rules().barred
        if not is_barred:
            return None
        return with_detail(BARRED, self.contact) if self.contact else BARRED

    # ---- Clients whose number may be that of another host

    def _of_another(self, request: ClientRequest, known: HostState) -> Answered | PutOff | None:
        """Returns the reply to a client that sends the number of another computer of its account, or None if
        the number is its own. After a loss of the state file a number may have been given a second time.

        A host_cpid that is not that of the host may have changed. So what the client has or reports says
        which host it is. Once its results are known to be those of the host, it may have this host_cpid.
        """
        key, pair = known.key, (known.key, request.host_cpid)
        if request.host_cpid == key.host_cpid or self.search.operator_key is None or self._cpids.has(pair):
            return None
        names = {*names_of(request.results), *(request.other_results or ())}
        if not names:
            return None
        holders = self.search.holders(key, names)
        if holders.keys() == names and set(holders.values()) == {key}:
            self._cpids.add(pair)
            return None
        with self._locks.held((request.authenticator, request.hostid, request.host_cpid)):
            return self._unless_its_own(request, known)

    def _unless_its_own(self, request: ClientRequest, known: HostState) -> Answered | PutOff | None:
        """Returns the reply to a client that has results which its host does not have, as far as is known, or
        None if the number is its own. bsched may have a host that the bridge does not know: a call tells it.

        If nobody has the results, bsched lost them. But if the client's count is not the next one of the host
        either, it is another computer, whose host the bridge does not know.
        """
        client = Key(request.authenticator, request.host_cpid)
        if not self._has_host(client):
            asked = self._call_aside(client, request, ())
            if isinstance(asked, PutOff):
                return None if asked.end is End.TOO_MANY_HOSTS else asked
        found = self._host_of(request)
        if isinstance(found, PutOff):
            return found
        own, holders = found
        is_next = request.rpc_seqno <= known.client_seqno + 1
        if not set(holders.values()) - {known.key} and is_next:
            self._cpids.add((known.key, request.host_cpid))
            return None
        log.warning("host %d is another computer than its number says", request.hostid)
        return self._of_found(request, own, holders, None)

    # ---- Clients that don't send the number of their host

    def _of_unknown(self, request: ClientRequest, original: HostState | None) -> Answered | PutOff:
        """Returns the reply to a client that has no number, one that the bridge does not know, or that of the
        host that it is a copy of. A client is the host that its host_cpid names, unless another one has its
        results. Then it is a new host, and so is a copy, as in BOINC.
        """
        if original is None:
            found = self._host_of(request)
            if isinstance(found, PutOff):
                return found
            return self._of_found(request, *found, None)
        holders = self._holders_for_copy(request, original)
        if isinstance(holders, PutOff):
            return holders
        if not self._is_copy(request, original, holders):
            log.warning("host %d is another computer than its number says", request.hostid)
            return self._of_unknown(request, None)
        log.warning("a client of host %d is a copy, and gets a number of its own", request.hostid)
        return self._of_found(request, None, holders, original)

    def _of_found(
        self, request: ClientRequest, key: Key | None, holders: dict[str, Key], original: HostState | None
    ) -> Answered | PutOff:
        """Returns the reply to a client that gets a number, if it is known which host it is and which one has
        each of its results.
        """
        client = ClientState()
        if key is None:
            key = self.hosts.key_for_copy(request.authenticator, request.hostid)
            client = ClientState(copy_of=request.hostid)
            request = replace(request, work_req_seconds=0)  # the reply may be lost, and its jobs with it
            if original is not None:
                # Of results that the original does not have, bsched does not know that it gave them out, for
                # example after a restore. Nobody can report them, so the copy forgets them, too.
                holders = {name: holders.get(name, key) for name in names_of(request.results)}
        return self._give_number(request, key, holders, client)

    def _give_number(
        self, request: ClientRequest, key: Key, holders: dict[str, Key], client: ClientState
    ) -> Answered | PutOff:
        """Returns the reply to a client that gets the number of a host.

        Results that another host of the account has are reported for that host. Results that no host is known
        to have are not reported. As long as there are any, the client gets no number, since with a number
        its reports would be acknowledged, and it gets no job.
        """
        unheld = [name for name in names_of(request.results) if name not in holders]
        aside = self._report_aside(request, holders, None if unheld else key)
        if isinstance(aside, PutOff):
            return aside
        if unheld:
            log.warning(
                "account %s: no known host has %r, so its report is not taken (%d results)",
                shown_key(request.authenticator),
                unheld[0],
                len(unheld),
            )
            notice = not_taken(unheld)
            put_off = PutOff(notice, HOUR, "notice", end=End.UNKNOWN_RESULTS)
            return put_off if aside is None else replace(aside, notice=notice)
        acknowledged = aside.reply.result_ack if aside else []
        results = tuple(result for result in request.results if holders[result.name] == key)
        if len(results) + len(set(acknowledged)) < len(set(names_of(request.results))) and aside:
            return aside  # not all fitted into a call
        reply = self._call(key, replace(request, results=results), client)
        if isinstance(reply, PutOff):
            return reply
        reply = replace(reply, result_ack=reply.result_ack + acknowledged)
        return Answered(reply, self.states.give_hostid(key))

    def _report_aside(
        self, request: ClientRequest, holders: dict[str, Key], but: Key | None
    ) -> Answered | PutOff | None:
        """Reports results for the hosts that have them, but for one host. Returns a reply without jobs that
        acknowledges them, or None if there are none.
        """
        hosts = dict.fromkeys(holders[name] for name in names_of(request.results) if name in holders)
        last: Reply | None = None
        for key in hosts:
            if key == but:
                continue
            results = tuple(result for result in request.results if holders.get(result.name) == key)
            reply = self._call_aside(key, request, results)
            if isinstance(reply, PutOff):
                return reply
            last = replace(reply, result_ack=(last.result_ack if last else []) + reply.result_ack)
        return None if last is None else Answered(last)

    def _holders_for_copy(self, request: ClientRequest, original: HostState) -> dict[str, Key] | PutOff:
        """Returns which host has each of a copy's reported results. Those that the original had when it was
        copied are the original's.
        """
        reported = names_of(request.results)
        if reported and self.search.operator_key is not None and not self._has_host(original.key):
            asked = self._call_aside(original.key, request, ())
            if isinstance(asked, PutOff):
                return asked
        if self.search.operator_key is None:
            return dict.fromkeys(reported, original.key)
        return self.search.holders(original.key, reported)

    def _is_copy(self, request: ClientRequest, original: HostState, holders: dict[str, Key]) -> bool:
        """Returns whether a client that sends the number of a host is a copy of its computer. After a loss of
        the state file the number may have been given a second time. Then the client is another computer: it
        has another host_cpid, and reports what the host does not have.
        """
        if request.host_cpid == original.key.host_cpid:
            return True
        if self._cpids.has((original.key, request.host_cpid)):
            return True
        return all(holders.get(name) == original.key for name in names_of(request.results))

    def _host_of(self, request: ClientRequest) -> "Found | PutOff":
        """Returns the key of a client whose number is not known, and which host has each of its results, as
        far as that is known.
        """
        key = Key(request.authenticator, request.host_cpid)
        reported = set(names_of(request.results))
        if self.search.operator_key is None:
            # without statements, a client is its host if bsched has the same number for it
            is_host = (
                reported
                and request.hostid
                and self.scheduler.has_host(key.authenticator, key.host_cpid, request.hostid)
            )
            return key, dict.fromkeys(reported, key) if is_host else {}
        holders = self.search.holders(key, reported | set(request.other_results or ()))
        if reported - holders.keys() and not self._has_host(key):
            # bsched may have the host, and the bridge does not know by which number: a call tells it
            asked = self._call_aside(key, request, ())
            if isinstance(asked, PutOff):
                return asked
            holders |= dict.fromkeys(self.search.held(key, reported - holders.keys()), key)
        owners = set(holders.values())
        if not owners or key in owners:
            return key, holders
        if len(owners) == 1 and self.hosts.has_former_number(owner := owners.pop()):
            return owner, holders  # its host_cpid has changed, and it got no number since the upgrade
        return (key if self.hosts.scheduler_hostid(key) is None else None), holders

    def _has_host(self, key: Key) -> bool:
        """Returns whether bsched has a host under the number that the bridge knows."""
        number = self.hosts.scheduler_hostid(key)
        return number is not None and self.scheduler.has_host(key.authenticator, key.host_cpid, number)

    def _call_aside(self, key: Key, request: ClientRequest, results: tuple[Report, ...]) -> Reply | PutOff:
        """Calls for a host that may not be the client. It reports some results and nothing else, and the jobs
        that are in hand for the host's own client stay so.
        """
        aside = replace(request, results=results, other_results=None, work_req_seconds=0)

        def act(state: HostState) -> Reply | PutOff:
            checked = aside if self.reports is None else self.reports.check(key, aside)
            reply = self._send(checked, ClientState(), state)
            if isinstance(reply, Reply):
                self.states.keep_in_hand(key, jobs_with(reply, state.jobs_in_hand))
                return replace(reply, results=[], result_abort=[])
            return reply

        return self._with_state(key, act)

    # ---- Calls

    def resend(self, key: Key) -> None:
        """Sends the open call of a key again, if there is one. Raises NoAnswer if it gets no answer again."""
        with self._locks.held(key):
            self._settled(key)

    def _settled(self, key: Key) -> HostState:
        """Returns the state of a key that is held. If the key has an open call, it is sent again first."""
        state = self.states.begin(key)
        call = state.in_file.open_call
        if call is None:
            return state
        answer = self._answer_to(key, call)
        if isinstance(answer, Refusal):
            log.warning("a call of %s that was sent again is refused as %s", key.host_cpid, answer.error)
            self.states.refused(state)
        else:
            self.states.answered(state, answer, jobs_with(answer, state.jobs_in_hand))
        return self.states.begin(key)

    def _answer_to(self, key: Key, call: bytes) -> Reply | Refusal:
        """Returns the answer to a call, with the credit of the archives added."""
        answer = self.scheduler.call(call)
        return self.archives.added_to(key, answer) if isinstance(answer, Reply) else answer

    def _with_state(
        self, key: Key, act: Callable[[HostState], Returned], seen: HostState | None = None
    ) -> Returned:
        """Returns what is done with the state of a key, which is held and has no open call: that is sent
        first. The state that was seen before the key is held is nearly always the one that it still has.
        """
        with self._locks.held(key):
            state = seen if seen is not None and seen.is_settled else self._settled(key)
            for _ in range(STATE_ATTEMPTS):
                try:
                    return act(state)
                except StateChanged:
                    state = self._settled(key)
        raise Busy

    def _call(
        self, key: Key, request: ClientRequest, client: ClientState, seen: HostState | None = None
    ) -> Reply | PutOff:
        """Returns the reply to a request under a key."""
        return self._with_state(key, lambda state: self._checked_call(request, client, state), seen)

    def _checked_call(self, request: ClientRequest, client: ClientState, state: HostState) -> Reply | PutOff:
        """Returns the reply under a key that is held and has no open call. Raises StateChanged."""
        if self.reports is None:
            return self._send(request, client, state)
        key = state.key
        reply = self._send(self.reports.check(key, request), client, state)
        if isinstance(reply, PutOff):
            return reply
        handed = self.reports.hand_out(key, reply.results)
        if len(handed) < len(reply.results):
            self.states.keep_in_hand(key, reply.results)
        return replace(reply, results=handed)

    def _is_made_up(self, state: HostState) -> bool:
        """Returns whether bsched does not have the account of a key, if it is doubtful.

        While bsched gives no answer, each call stays on the disk, and anybody can make accounts up. So of an
        account that the bridge does not know nothing is stored then before bsched says that it has it. Its
        hosts can have no job. Raises NoAnswer.
        """
        if not state.is_of_stranger:
            return False
        if self.scheduler.silent_since is None and not self.states.has_many_of_strangers():
            return False
        return not self.scheduler.has_account(state.key.authenticator)

    def _send(self, request: ClientRequest, client: ClientState, state: HostState) -> Reply | PutOff:
        """Returns the reply to a request, with the name that the user chose and that of the user's team. The
        key is held, and has no open call. Raises StateChanged.
        """
        key = state.key
        if self._is_made_up(state):
            return put_off_by(Refusal("bad_account"))
        if self.rules().holds_back:
            request = self.held_back.limited(key, request)
        listed = {*(request.other_results or ()), *names_of(request.results)}
        in_hand = state.jobs_but(listed)
        names, seconds = [job.name for job in in_hand], sum(job.estimate for job in in_hand)

        def text(number: int) -> bytes:
            return call_text(request, key.host_cpid, number, names, seconds, self.scheduler.file)

        last = 0
        refusal = Refusal("stale")
        for _ in range(COUNT_ATTEMPTS):
            opened = self._open_call(state, text, client, last)
            if isinstance(opened, PutOff):
                return opened
            answer = self._answer_to(key, opened.in_file.open_call or b"")
            if isinstance(answer, Reply):
                jobs = [] if request.other_results is None else answer.results
                self.states.answered(opened, answer, jobs, request.about)
                self._note_answer(key, request, answer)
                return shown(answer, state.account, in_hand)
            refusal = answer
            self.states.refused(opened)
            if refusal.error == "bad_account" and self.import_again(key.authenticator):
                state = self.states.begin(key)
                continue
            if refusal.error not in ("stale", "reused"):
                break
            state, last = self.states.begin(key), refusal.members["last"]
            log.warning("the count of %s continues from %d, which bsched had reached", key.host_cpid, last)
        return put_off_by(refusal)

    def _note_answer(self, key: Key, request: ClientRequest, answer: Reply) -> None:
        """Counts the results of a reply, and ends the uploads of those that it acknowledges."""
        self.counted.record(key, request.results, answer.result_ack)
        self.held_back.gave(key, len(answer.results))
        self.held_back.record(key, request.results, answer.result_ack)
        if self.reports is not None:
            self.reports.end(answer.result_ack)

    def _open_call(
        self, state: HostState, text: Callable[[int], bytes], client: ClientState, last: int
    ) -> HostState | PutOff:
        """Returns the state with a new call. A new host is refused if its account has as many as it may have.
        Raises StateChanged.

        The hosts are counted in the state file. If that file and bsched's tables are of different moments,
        the two are reconciled first. A host that bsched does not have makes room.
        """
        account = state.key.authenticator
        most = None if state.in_file.has_host else self.rules().most_hosts
        try:
            try:
                return self.states.open(state, text, client, last, most)
            except TooManyHosts:
                newest = self.hosts.newest(account)
                if newest is None or self.scheduler.has_host(account, newest[0].host_cpid, newest[1]):
                    raise
                self.hosts.mark_gone(newest[0])
                return self.states.open(state, text, client, last, most)
        except TooManyHosts as many:
            self._log_refused(state.key, f"the account has {many.count} hosts")
            return too_many_hosts(many.count)


def names_of(results: Iterable[Report]) -> list[str]:
    """Returns the names of reported results."""
    return [result.name for result in results]


def jobs_with(reply: Reply, in_hand: list[Job]) -> list[Job]:
    """Returns the jobs in hand that the reply does not send again, acknowledge or abort, followed by the jobs
    of the reply.
    """
    settled = {*reply.result_abort, *reply.result_ack, *(job.name for job in reply.results)}
    return [job for job in in_hand if job.name not in settled] + reply.results


def shown(reply: Reply, account: AccountState | None, in_hand: list[Job]) -> Reply:
    """Returns a reply with the name and the preferences that the user chose, the user's team, and the jobs in
    hand.
    """
    if in_hand:
        reply = replace(reply, results=jobs_with(reply, in_hand))
    if account is None or (account.name, account.team, account.preferences) == (reply.user_name, None, None):
        return reply
    return replace(reply, user_name=account.name, team_name=account.team, preferences=account.preferences)


class Resending(threading.Thread):
    """A thread that sends open messages again until each has its answer: at the start, then at intervals."""

    def __init__(
        self, exchange: Exchange, pause_seconds: float, resend_accounts: Callable[[], None] | None = None
    ):
        super().__init__(name="resending", daemon=True)
        self.exchange, self.pause_seconds, self.resend_accounts = exchange, pause_seconds, resend_accounts
        self._ending = threading.Event()

    def run(self) -> None:
        """Goes through the open messages, round after round, until it is ended.

        It pauses after a call that got no answer, and after the last call. Each round begins with the imports
        of accounts.
        """
        host = 0
        while not self._ending.is_set():
            try:
                if host == 0:
                    self._resend_accounts()
                following = self.exchange.states.next_open(host)
                host = 0
                if following is not None:
                    host, key = following
                    self.exchange.resend(key)
                    continue
            except (NoAnswer, Busy):
                pass
            except Exception:
                log.exception("an open message could not be sent again")
            self._ending.wait(self.pause_seconds)

    def _resend_accounts(self) -> None:
        """Sends the imports of accounts again. If they get no answer, the calls still have their turn."""
        try:
            if self.resend_accounts is not None:
                self.resend_accounts()
        except NoAnswer:
            pass

    def end(self) -> None:
        """Ends the thread after the message that it is sending."""
        self._ending.set()
        self.join(END_SECONDS)
