"""The queue of digest programs: whose turn it is, how long they may take, and what is kept."""
import threading
from collections.abc import Callable, Iterator
from contextlib import contextmanager
from pathlib import Path
from typing import Any

import pytest
from clocks import Clock
from joining import wait_until

from bsched_bridge.catalogue.digest_programs import DigestFault, DigestProgram
from bsched_bridge.common import limits
from bsched_bridge.common.limits import UsedSeconds
from bsched_bridge.people.hosts import Key
from bsched_bridge.people.measurements import WhyPutOff
from bsched_bridge.uploads import digest_queue
from bsched_bridge.uploads.digest_queue import DigestQueue
from bsched_bridge.uploads.handed_out import HandedJob, Outcome
from bsched_files.catalogue import OutputFile
from bsched_files.uploads import StoredOutput

PROGRAM = DigestProgram(Path("/usr/bin/true"), 10, None)
OUT = (OutputFile("out", 100, False, True),)


class Stored:
    """Has a file for each result, with its name as content, in place of the folder of uploads."""

    def __init__(self) -> None:
        self.files: dict[str, dict[str, StoredOutput]] = {}
        self.outcomes: dict[str, Outcome] = {}
        self.tables = self

    @contextmanager
    def turn(self) -> Iterator[None]:
        """Holds the turn."""
        yield

    def stored_files(self, result: str) -> dict[str, StoredOutput]:
        """Returns the files of a result."""
        return self.files.get(result, {"out": StoredOutput(1, result)})

    def stored_paths(self, result: str) -> dict[str, Path]:
        """Returns the paths of the files of a result."""
        return {"out": Path(result)}

    def set_outcome(self, result: str, outcome: Outcome) -> None:
        """Notes an outcome."""
        self.outcomes[result] = outcome


def job(result: str, account: str = "ann") -> HandedJob:
    """Returns a job of an account."""
    return HandedJob(result, Key(account, "c1"), "app", OUT, 0, is_stored=True)


class Runs:
    """Runs no program: it notes which results had their turn, waits until the test lets it go on, and takes
    some seconds by the test's clock.
    """

    def __init__(self, clock: Clock) -> None:
        self.clock, self.results, self.go = clock, list[str](), threading.Event()
        self.held: dict[str, threading.Event] = {}  # results with an event of their own
        self.seconds, self.fault = 0.0, ""
        self.while_it_runs: Callable[[], None] = lambda: None

    def __call__(self, _program: DigestProgram, files: list[tuple[str, Path]]) -> str:
        result = str(files[0][1])
        self.results.append(result)
        assert self.held.get(result, self.go).wait(60)
        self.while_it_runs()
        self.clock.now += self.seconds
        if self.fault:
            raise DigestFault(self.fault)
        return f"digest of {files[0][1]}"


@pytest.fixture
def stored() -> Stored:
    return Stored()


@pytest.fixture
def runs(monkeypatch: pytest.MonkeyPatch) -> Runs:
    """Has programs run one after the other."""
    made = Runs(Clock())
    monkeypatch.setattr(digest_queue, "digest_of", made)
    monkeypatch.setattr(digest_queue, "MOST_AT_ONCE", 1)
    return made


def queue(stored: Stored, runs: Runs, most_seconds: int = 1000) -> DigestQueue:
    """Returns a queue."""
    fake: Any = stored
    return DigestQueue(fake, fake, most_seconds, runs.clock)


def end(made: DigestQueue, runs: Runs) -> None:
    """Waits for the end of all programs."""
    runs.go.set()
    wait_until(lambda: made.waiting() == 0)


def test_accounts_take_turns(stored: Stored, runs: Runs) -> None:
    made = queue(stored, runs)
    for name in ("a0", "a1", "a2", "a3"):
        assert made.ask(job(name), PROGRAM).why is WhyPutOff.DIGEST_WAITS
    for account, name in (("bob", "b0"), ("carl", "c0"), ("bob", "b1")):
        made.ask(job(name, account), PROGRAM)
    end(made, runs)
    assert runs.results[0] == "a0"
    assert sorted(runs.results[1:4]) == ["a1", "b0", "c0"]
    assert sorted(runs.results[4:6]) == ["a2", "b1"] and runs.results[6] == "a3"
    assert stored.outcomes["b1"] == Outcome(0, "digest of b1") and len(stored.outcomes) == 7


def test_an_account_whose_program_runs_comes_last(
    stored: Stored, runs: Runs, monkeypatch: pytest.MonkeyPatch
) -> None:
    monkeypatch.setattr(digest_queue, "MOST_AT_ONCE", 2)
    made = queue(stored, runs)
    runs.held["a0"] = threading.Event()
    for account, name in (("ann", "a0"), ("bob", "b0")):
        made.ask(job(name, account), PROGRAM)
    wait_until(lambda: len(runs.results) == 2)
    for account, name in (("ann", "a1"), ("carl", "c0")):
        made.ask(job(name, account), PROGRAM)
    runs.go.set()
    wait_until(lambda: made.waiting() == 1)
    assert runs.results[2:] == ["c0", "a1"]
    runs.held["a0"].set()
    end(made, runs)


def test_a_result_has_one_turn(stored: Stored, runs: Runs) -> None:
    made = queue(stored, runs)
    for _ in range(3):
        assert made.ask(job("a0"), PROGRAM).why is WhyPutOff.DIGEST_WAITS
    assert made.waiting() == 1
    end(made, runs)
    assert runs.results == ["a0"]


def test_the_seconds_of_an_account_are_limited(stored: Stored, runs: Runs) -> None:
    made, runs.seconds = queue(stored, runs, most_seconds=250), 100.0
    for number in range(6):
        made.ask(job(f"a{number}"), PROGRAM)
    made.ask(job("b0", "bob"), PROGRAM)
    end(made, runs)
    assert sorted(runs.results) == ["a0", "a1", "a2", "b0"]
    waits = made.ask(job("a3"), PROGRAM)
    assert waits.why is WhyPutOff.DIGEST_LIMIT and "250 seconds in the last hour" in str(waits)
    assert made.ask(job("b1", "bob"), PROGRAM).why is WhyPutOff.DIGEST_WAITS
    end(made, runs)
    runs.clock.now += 3600
    assert made.ask(job("a3"), PROGRAM).why is WhyPutOff.DIGEST_WAITS
    end(made, runs)
    assert runs.results[-1] == "a3"


def test_a_thread_that_can_not_start_is_started_later(
    stored: Stored, runs: Runs, monkeypatch: pytest.MonkeyPatch
) -> None:
    def refused(_thread: threading.Thread) -> None:
        raise RuntimeError("can't start new thread")

    made = queue(stored, runs)
    with monkeypatch.context() as patch:
        patch.setattr(threading.Thread, "start", refused)
        assert made.ask(job("a0"), PROGRAM).why is WhyPutOff.DIGEST_WAITS
    made.ask(job("a0"), PROGRAM)
    end(made, runs)
    assert runs.results == ["a0"]


def test_what_waits_is_limited(stored: Stored, runs: Runs, monkeypatch: pytest.MonkeyPatch) -> None:
    monkeypatch.setattr(digest_queue, "MOST_OF_ACCOUNT", 3)
    monkeypatch.setattr(digest_queue, "MOST_WAITING", 5)
    made = queue(stored, runs)
    made.ask(job("a0"), PROGRAM)
    wait_until(lambda: runs.results == ["a0"])
    asked = [made.ask(job(f"a{number}"), PROGRAM).why for number in range(1, 5)]
    assert asked == [WhyPutOff.DIGEST_WAITS] * 3 + [WhyPutOff.DIGEST_LIMIT]
    assert made.ask(job("b0", "bob"), PROGRAM).why is WhyPutOff.DIGEST_WAITS
    assert made.ask(job("c0", "carl"), PROGRAM).why is WhyPutOff.DIGEST_LIMIT
    end(made, runs)
    assert sorted(runs.results) == ["a0", "a1", "a2", "a3", "b0"]


def test_a_program_that_fails_is_tried_again_later(stored: Stored, runs: Runs) -> None:
    made, runs.fault = queue(stored, runs), "no memory"
    for count, pause in ((1, 600), (2, 3600)):
        made.ask(job("a0"), PROGRAM)
        end(made, runs)
        runs.clock.now += pause - 1
        waits = made.ask(job("a0"), PROGRAM)
        assert waits.why is WhyPutOff.DIGEST_FAILED and "no memory; it is tried again in 1 s" in str(waits)
        assert len(runs.results) == count and not stored.outcomes
        runs.clock.now += 1
    made.ask(job("a0"), PROGRAM)
    end(made, runs)
    assert stored.outcomes == {
        "a0": Outcome(1, "the digest program failed 3 times for these files: no memory")
    }


def test_an_outcome_is_not_that_of_other_files(stored: Stored, runs: Runs) -> None:
    def replace() -> None:
        stored.files["a0"] = {"out": StoredOutput(1, "others")}

    made, runs.while_it_runs = queue(stored, runs), replace
    made.ask(job("a0"), PROGRAM)
    end(made, runs)
    assert runs.results == ["a0"] and not stored.outcomes


def test_what_is_counted_is_limited(stored: Stored, runs: Runs, monkeypatch: pytest.MonkeyPatch) -> None:
    monkeypatch.setattr(digest_queue, "MOST_FAILED", 2)
    monkeypatch.setattr(limits, "MOST_ACCOUNTS", 2)
    made, runs.fault = queue(stored, runs), "no memory"
    for number in range(5):
        made.ask(job(f"a{number}", f"u{number}"), PROGRAM)
    end(made, runs)
    assert list(made._failures) == ["a3", "a4"] and list(made._used._accounts) == ["u3", "u4"]


def test_seconds_are_counted_for_an_hour() -> None:
    clock = Clock()
    used = UsedSeconds(clock, 60, 60)
    for _ in range(200):
        used.add("ann", 0.5)
        clock.now += 60
    assert used.of("ann") == 29.5 and len(used._accounts["ann"]) <= 61
    assert used.of("bob") == 0
