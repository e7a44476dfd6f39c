"""The process that serves is stopped, and always continues."""
import os
import random
import signal
import subprocess
import sys
import time
from pathlib import Path

import pytest
from copies_tried import goes_on, state_of
from small_project import END, PACKAGES, Twin

from bsched_files.faults import Fault
from bsched_tools.copies import copying, stopping, taking
from bsched_tools.copies.faults import Retry


def killed_after(seconds: float, project: Path, copies: Path) -> None:
    """Begins a copy, and kills it after this many seconds."""
    command = [sys.executable, "-m", "bsched_tools", "copy", "--tables", str(project), "--to", str(copies)]
    path = {"PYTHONPATH": PACKAGES}
    with subprocess.Popen(command, env=path, stdout=subprocess.DEVNULL) as copier:
        time.sleep(seconds)
        copier.kill()


def test_serving_goes_on_where_the_tool_is_killed(project: Path, twin: Twin, copies: Path) -> None:
    chance = random.Random(1)
    for number in range(25):
        killed_after(chance.uniform(0.05, 0.25), project, copies)
        assert goes_on(twin)
        assert twin.call(1, number + 1)["rpc_seqno"] == number + 1


def test_serving_goes_on_where_the_tool_is_killed_while_it_stands_still(project: Path, twin: Twin) -> None:
    """The parent is killed during the stop. Its child continues the process."""
    script = (
        "import sys, time; from bsched_tools.copies import stopping\n"
        f"with stopping.process_of({twin.process.pid}) as process, stopping.stopped(process):\n"
        "    print('still', flush=True); time.sleep(60)\n"
    )
    for end in (signal.SIGKILL, signal.SIGTERM, signal.SIGINT):
        command = [sys.executable, "-c", script]
        path = {"PYTHONPATH": PACKAGES}
        with subprocess.Popen(
            command, env=path, stdout=subprocess.PIPE, stderr=subprocess.DEVNULL
        ) as stopper:
            assert stopper.stdout is not None and stopper.stdout.readline() == b"still\n"
            assert state_of(twin.process.pid) == "T"
            stopper.send_signal(end)
            stopper.wait(END)
        assert goes_on(twin)


def test_no_process_stands_still_beyond_the_limit(twin: Twin, monkeypatch: pytest.MonkeyPatch) -> None:
    monkeypatch.setattr(stopping, "STILL_SECONDS", 0.2)
    with pytest.raises(Fault, match="within 0 seconds"), stopping.process_of(twin.process.pid) as process:
        with stopping.stopped(process):
            assert state_of(twin.process.pid) == "T"
            assert goes_on(twin)
    assert goes_on(twin)


def test_a_process_that_ran_meanwhile_voids_the_copy(twin: Twin) -> None:
    with pytest.raises(Retry, match="ran while"), stopping.process_of(twin.process.pid) as process:
        with stopping.stopped(process):
            os.kill(twin.process.pid, signal.SIGCONT)
            time.sleep(0.05)
            os.kill(twin.process.pid, signal.SIGSTOP)
            time.sleep(0.05)
    assert goes_on(twin)


def test_a_process_that_does_not_stop_goes_on(
    project: Path,
    twin: Twin,
    copies: Path,
    monkeypatch: pytest.MonkeyPatch,
) -> None:
    monkeypatch.setattr(stopping, "STOP_SECONDS", 0.01)
    monkeypatch.setattr(stopping, "is_still", lambda _states: False)
    monkeypatch.setattr(taking, "SEEK_SECONDS", 0.2)
    with pytest.raises(Fault, match="did not stop within a second, and was continued"):
        copying.copy_tables(project, copies)
    assert goes_on(twin)
    assert list(copies.iterdir()) == []


def test_a_process_that_stood_still_before_goes_on_too(project: Path, twin: Twin, copies: Path) -> None:
    """If a tool and its child are both killed, the process stays stopped. The next copy continues it."""
    os.kill(twin.process.pid, signal.SIGSTOP)
    copied = copying.copy_tables(project, copies)
    assert copied.still_seconds is not None and goes_on(twin)


def test_a_process_that_stops_at_the_second_try(
    project: Path,
    twin: Twin,
    copies: Path,
    monkeypatch: pytest.MonkeyPatch,
) -> None:
    is_still = stopping.is_still
    tries: list[stopping.Threads] = []

    def too_late_at_first(states: stopping.Threads) -> bool:
        tries.append(states)
        return len(tries) > 20 and is_still(states)

    monkeypatch.setattr(taking, "SEEK_SECONDS", END)
    monkeypatch.setattr(stopping, "STOP_SECONDS", 0.002)
    monkeypatch.setattr(stopping, "is_still", too_late_at_first)
    assert copying.copy_tables(project, copies).still_seconds is not None and goes_on(twin)
