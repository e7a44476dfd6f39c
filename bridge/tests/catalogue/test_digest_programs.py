"""Digest programs: what they can reach, how they end, and what bsched gets."""
import os
import shutil
import socket
import subprocess
import tempfile
import threading
import time
from collections.abc import Callable
from contextlib import suppress
from pathlib import Path
from typing import Any

import pytest
from bridges import Bridge
from handing_out import send
from joining import wait_until
from messages import FIRST, names, value
from reporting import reported, worked
from uploading import NEVER, on_disk, report, sha256_of

from bsched_bridge import __main__ as command
from bsched_bridge.catalogue import digest_programs
from bsched_bridge.catalogue.contents import read_catalogue
from bsched_bridge.catalogue.digest_programs import (
    BadFiles,
    CannotRun,
    DigestFault,
    DigestProgram,
    check_digest,
    digest_of,
    tried_on_odd_files,
)
from bsched_bridge.uploads import current_catalogue, digest_queue
from bsched_bridge.uploads.digest_queue import DigestQueue
from bsched_bridge.uploads.handed_out import HandedOut
from bsched_files.catalogue import OutputFile
from bsched_files.toml_entries import OperatorFault

EXAMPLES = Path(__file__).resolve().parents[3] / "examples" / "digest_programs"
OUT = OutputFile("out", 1000, False, True), OutputFile("log", 1000, True, False)


def can_run() -> bool:
    """Returns whether bubblewrap works here: some machines allow no namespaces."""
    words = [digest_programs.BWRAP, "--unshare-all", "--ro-bind", "/", "/", "/bin/true"]
    if shutil.which(digest_programs.BWRAP) is None:
        return False
    return subprocess.run(words, capture_output=True).returncode == 0


pytestmark = pytest.mark.skipif(not can_run(), reason="bubblewrap can't run here")


@pytest.fixture
def program(tmp_path: Path) -> Callable[..., Any]:
    """Returns a function that makes a digest program of a shell script."""

    def made(text: str, seconds: int = 60, example: Path | None = None) -> DigestProgram:
        path = tmp_path / "program"
        path.write_text(f"#!/bin/sh\n{text}\n")
        path.chmod(0o755)
        return DigestProgram(path, seconds, example)

    return made


@pytest.fixture
def out(tmp_path: Path) -> list[tuple[str, Path]]:
    """Returns the files of a result: one that has some words."""
    path = tmp_path / "content"
    path.write_text("some words\n")
    return [("out", path)]


def test_the_program_gets_the_files_in_their_order(
    program: Callable[..., Any], tmp_path: Path, out: list[tuple[str, Path]]
) -> None:
    other = tmp_path / "other"
    other.write_text("more\n")
    files = [("b", other), *out]
    assert digest_of(program('echo "$@"; cat "$@"'), files) == "/files/b /files/out\nmore\nsome words"


@pytest.mark.parametrize(
    "script, output",
    [
        ("env | grep -v ^PWD=; true", ""),  # the shell itself sets PWD
        ("id -u", "65534"),
        ("pwd; ls -A", "/work"),
        ("echo a > a; cat a", "a"),
        ("ls /", "bin\ndev\ndigest\nfiles\nlib\nlib64\nsbin\nusr\nwork"),
        ("echo x > /files/out || echo refused", "refused"),
        ("echo x > /new || echo refused", "refused"),
        ("echo x > /usr/new || echo refused", "refused"),
        (
            "python3 -c 'import socket; print(socket.socket().connect_ex((\"192.0.2.1\", 80)))'",
            "101",
        ),  # unreachable
        ("ls /proc /home /root /var /etc/passwd 2> /dev/null | wc -l", "0"),
        ("ulimit -n", "64"),
        ("python3 -c 'bytes(2 << 30)' 2> /dev/null || echo refused", "refused"),
    ],
)
def test_what_a_program_can_reach(
    program: Callable[..., Any], out: list[tuple[str, Path]], script: str, output: str
) -> None:
    text = digest_of(program(script), out)
    assert text.replace("etc\n", "") == output


@pytest.mark.parametrize(
    "script, fault",
    [
        ("echo no; exit 1", "its status is 1"),
        ("exit 2", "its status is 2"),
        ("python3 -c 'bytes(600 << 20)'", "its status is 1"),
        ("kill -9 $$", "its status is 137"),
        ("head -c 1025 /dev/urandom | tr -c a a", "more than 1024 bytes"),
        ("printf '\\377'", "not UTF-8"),
        ("printf '\\001'", "control characters"),
        ("exec /none", "its status is 12[67]"),
    ],
)
def test_a_program_that_fails_says_nothing(
    program: Callable[..., Any], out: list[tuple[str, Path]], script: str, fault: str
) -> None:
    with pytest.raises(DigestFault, match=fault):
        digest_of(program(script), out)


def test_a_program_can_not_reach_this_machine(
    program: Callable[..., Any], out: list[tuple[str, Path]]
) -> None:
    with socket.create_server(("127.0.0.1", 0)) as server:
        script = f'socket.socket().connect_ex(("127.0.0.1", {server.getsockname()[1]}))'
        assert digest_of(program(f"python3 -c 'import socket; print({script})'"), out) == "111"


def command_lines() -> bytes:
    """Returns the command lines of all processes."""
    found = b""
    for path in Path("/proc").glob("[0-9]*/cmdline"):
        with suppress(OSError):  # it has ended
            found += path.read_bytes()
    return found


def test_a_program_that_takes_too_long_is_killed(
    program: Callable[..., Any], out: list[tuple[str, Path]]
) -> None:
    began = time.monotonic()
    mark = f"299.{os.getpid():08}"  # in the command line of no other process
    with pytest.raises(DigestFault, match="more than 1 seconds"):
        digest_of(program(f"sleep 300 & sleep {mark}", seconds=1), out)
    assert time.monotonic() - began < 60
    wait_until(lambda: mark.encode() not in command_lines())  # the kernel ends it soon after the sandbox


def test_1024_bytes_are_read(program: Callable[..., Any], out: list[tuple[str, Path]]) -> None:
    assert digest_of(program("head -c 1024 /dev/urandom | tr -c a a"), out) == "a" * 1024


def test_bad_files(program: Callable[..., Any], out: list[tuple[str, Path]]) -> None:
    with pytest.raises(BadFiles, match="^too few words$"):
        digest_of(program("echo too few words; exit 65"), out)
    with pytest.raises(BadFiles, match="says that the files are bad"):
        digest_of(program("exit 65"), out)


def test_a_fault_of_the_sandbox_is_no_fault_of_the_files(
    program: Callable[..., Any], out: list[tuple[str, Path]], tmp_path: Path, monkeypatch: pytest.MonkeyPatch
) -> None:
    with pytest.raises(DigestFault, match="could not start it: see whether it is executable") as fault:
        digest_of(program("echo good"), [("out", tmp_path / "none")])
    assert not isinstance(fault.value, CannotRun)
    path = program("echo good").path
    path.chmod(0o644)
    with pytest.raises(DigestFault, match="could not start it|its status"):
        digest_of(DigestProgram(path, 10, None), out)
    monkeypatch.setattr(digest_programs, "CHOOM", "/none/choom")
    with pytest.raises(CannotRun, match="bubblewrap can't run here.*can't be run"):
        digest_of(program("echo good"), out)


def test_the_true_reason_is_said_if_bubblewrap_may_not_run(
    program: Callable[..., Any], out: list[tuple[str, Path]], monkeypatch: pytest.MonkeyPatch
) -> None:
    monkeypatch.setattr(digest_programs, "SANDBOX", ("--ro-bind", "/none", "/usr"))
    wanted = "^bubblewrap can't run here; allow it to the unit .*: bwrap: .*/none: No such file or directory$"
    with pytest.raises(CannotRun, match=wanted):
        digest_of(program("echo good"), out)


def as_another_user(program: DigestProgram) -> bytes:
    """Returns what a program prints that a user without rights runs: processes of root are not counted."""
    user = None if os.getuid() else 65534
    with tempfile.TemporaryFile() as status:
        words = digest_programs.command(program, [], status.fileno())
        groups: list[int] | None = None if user is None else []
        ended = subprocess.run(
            words,
            stdout=subprocess.PIPE,
            pass_fds=[status.fileno()],
            cwd="/",
            user=user,
            group=user,
            extra_groups=groups,
        )
    return bytes(ended.stdout)


def test_processes_are_counted(out: list[tuple[str, Path]]) -> None:
    """A program of many processes gets no more of them, and those of others don't count."""
    script = (
        "import os, time\n"
        "count = 0\n"
        "try:\n"
        "    while count < 100:\n"
        "        if os.fork() == 0:\n"
        "            time.sleep(60)\n"
        "            os._exit(0)\n"
        "        count += 1\n"
        "except OSError:\n"
        "    pass\n"
        "print(count)\n"
    )
    with tempfile.TemporaryDirectory() as folder:
        Path(folder).chmod(0o755)
        path = Path(folder) / "program"
        path.write_text(f"#!/usr/bin/python3\n{script}")
        path.chmod(0o755)
        printed = as_another_user(DigestProgram(path, 60, None))
    assert 1 <= int(printed) < digest_programs.MOST_PROCESSES


def test_memory_runs_out_for_a_program_first(program: Callable[..., Any]) -> None:
    with tempfile.TemporaryFile() as status:
        words = digest_programs.command(program("true"), [], status.fileno())
    place = words.index("--")
    score = subprocess.run([*words[: place + 1], "cat", "/proc/self/oom_score_adj"], capture_output=True)
    assert score.stdout == b"1000\n"


# ---- The examples


def example(name: str, tmp_path: Path, *texts: str) -> str:
    """Returns what an example prints for files with these texts."""
    files = []
    for place, text in enumerate(texts):
        path = tmp_path / f"in{place}"
        path.write_text(text)
        files.append((path.name, path))
    return digest_of(DigestProgram(EXAMPLES / name, 60, None), files)


def test_numbers_are_rounded(tmp_path: Path) -> None:
    first = example("rounded", tmp_path, "1.0000001 2e3\n-0.0 5\n")
    assert first.startswith("rounded sha256:") and first.endswith(" 4")
    assert example("rounded", tmp_path, "0.99999999   2000.0003\n0 5.0\n") == first
    assert example("rounded", tmp_path, "1.00001 2e3\n0 5\n") != first
    assert example("rounded", tmp_path, "1 2e3 0\n5\n") != first
    with pytest.raises(BadFiles, match="in0, line 2: could not convert"):
        example("rounded", tmp_path, "1\nx\n")
    with pytest.raises(BadFiles, match="nan is not a number"):
        example("rounded", tmp_path, "nan\n")
    with pytest.raises(BadFiles, match="in0, line 2: it is not ASCII"):
        example("rounded", tmp_path, "1\n\u00e9\n")
    with pytest.raises(BadFiles, match="in0, line 2: the line has more than 100000 bytes"):
        example("rounded", tmp_path, "1\n" + "1 " * 60_000)


def test_lines_in_any_order(tmp_path: Path) -> None:
    first = example("any_order", tmp_path, "b\na\n")
    assert first == f"any_order sha256:{sha256_of(b'a' + chr(10).encode() + b'b' + chr(10).encode())} 2"
    assert example("any_order", tmp_path, "a\nb\nb\n") == first
    assert example("any_order", tmp_path, "a\nc\n") != first
    with pytest.raises(BadFiles, match="no line"):
        example("any_order", tmp_path, "")


# ---- In the bridge


@pytest.fixture
def digest_bridge(file_bridge: Bridge) -> Bridge:
    """A bridge of an application with a digest program, which a test can replace."""
    folder = file_bridge.folder / "digests"
    folder.mkdir()
    path = file_bridge.folder / "catalogue.toml"
    path.write_text(
        path.read_text().replace("output_files =", 'digest = "digests/any_order"\noutput_files =', 1)
    )
    shutil.copy(EXAMPLES / "any_order", folder)
    file_bridge.restart()
    return file_bridge


def replaced(bridge: Bridge, text: str) -> None:
    """Replaces the digest program."""
    (bridge.folder / "digests" / "any_order").write_text(f"#!/bin/sh\n{text}\n")


def queue_of(bridge: Bridge) -> DigestQueue:
    """Returns the queue of digest programs of a bridge."""
    checks = bridge.application.exchange.reports
    assert checks is not None
    return checks.digests


def put_off(bridge: Bridge, body: str, result: str = "u1_0") -> None:
    """Sends a report that is put off, and waits for the end of its digest program."""
    reply = bridge.call(body)
    assert names(reply, "result_ack") == []
    assert bridge.twin.calls()[-1]["other_results"] == [result]
    assert value(reply, "next_rpc_delay") == "120.000000"
    wait_until(lambda: queue_of(bridge).waiting() == 0)


def decided(bridge: Bridge, body: str, result: str = "u1_0") -> tuple[int, str]:
    """Sends a report, which is put off, and sends it again once its digest program has ended. Returns what
    bsched got.
    """
    put_off(bridge, body, result)
    return reported(bridge, body)


def test_results_agree_by_their_digests(digest_bridge: Bridge) -> None:
    reports = []
    for place, (client, data) in enumerate((("ann", b"one\ntwo\n"), ("bob", b"two\none\n"))):
        infos = worked(digest_bridge, data, key=f"{client}-key", cpid=client)
        body = report(f"u1_{place}", infos, hostid=FIRST + place, key=f"{client}-key", cpid=client)
        reports.append(decided(digest_bridge, body, f"u1_{place}"))
    assert reports[0] == reports[1]
    assert reports[0][0] == 0 and reports[0][1].startswith("any_order sha256:")
    assert len(on_disk(digest_bridge.folder)) == 2  # the files are those of each


def test_bad_files_are_an_error(digest_bridge: Bridge) -> None:
    assert decided(digest_bridge, report("u1_0", worked(digest_bridge, b""))) == (1, "the file has no line")


def test_no_call_waits_for_a_program(digest_bridge: Bridge) -> None:
    """The program ends only after the calls have their answers."""
    replaced(digest_bridge, "while [ ! -e /files/out/x ]; do sleep 60; done")
    body = report("u1_0", worked(digest_bridge, b"one\n"))
    for _ in range(3):
        assert names(digest_bridge.call(body), "result_ack") == []
        assert queue_of(digest_bridge).waiting() == 1
    wait_until(lambda: queue_of(digest_bridge).waiting() == 0)  # it takes more than its 10 seconds


def test_the_outcome_outlives_the_bridge(digest_bridge: Bridge) -> None:
    body = report("u1_0", worked(digest_bridge, b"one\n"))
    put_off(digest_bridge, body)
    digest_bridge.restart()
    replaced(digest_bridge, "echo another")
    assert reported(digest_bridge, body)[1].startswith("any_order sha256:")


def test_no_other_file_comes_for_a_result_that_waits(digest_bridge: Bridge) -> None:
    """Its files are stored, so its token has ended. After the report they are not those of an error."""
    data = b"one\n"
    body = report("u1_0", worked(digest_bridge, data))
    put_off(digest_bridge, body)
    assert send(digest_bridge, "u1_0_0", b"two\n") == NEVER
    assert reported(digest_bridge, body)[0] == 0
    job = HandedOut(digest_bridge.store.tables).job("u1_0")
    assert job is not None and job.is_stored and not job.is_ended
    assert on_disk(digest_bridge.folder) == {f"store/{sha256_of(data)}": data}


def test_a_program_that_fails_puts_the_report_off(
    digest_bridge: Bridge, caplog: pytest.LogCaptureFixture
) -> None:
    infos = worked(digest_bridge, b"one\n")
    body = report("u1_0", infos)
    replaced(digest_bridge, "exit 1")
    for _ in range(2):
        put_off(digest_bridge, body)
    assert "any_order fails for u1_0 (1): its status is 1" in caplog.text
    assert "fails for u1_0 (2)" not in caplog.text  # it rests before the next attempt
    assert "the report of 'u1_0' is put off: " in caplog.text and "it is tried again in" in caplog.text
    replaced(digest_bridge, "echo mended")
    assert decided(digest_bridge, body) == (0, "mended")
    replaced(digest_bridge, "echo another")  # it runs once for each reported result
    assert reported(digest_bridge, body) == (0, "mended")
    digest_bridge.restart()
    assert reported(digest_bridge, body) == (0, "mended")


def test_after_three_failures_the_result_is_an_error(
    digest_bridge: Bridge, monkeypatch: pytest.MonkeyPatch
) -> None:
    monkeypatch.setattr(digest_queue, "FAILURE_PAUSES", (0.0, 0.0))
    body = report("u1_0", worked(digest_bridge, b"one\n"))
    replaced(digest_bridge, "exit 1")
    for _ in range(3):
        put_off(digest_bridge, body)
    why = "the digest program failed 3 times for these files: its status is 1"
    assert reported(digest_bridge, body) == (1, why)


def test_a_machine_without_bubblewrap_is_no_fault_of_the_files(
    digest_bridge: Bridge, monkeypatch: pytest.MonkeyPatch, caplog: pytest.LogCaptureFixture
) -> None:
    monkeypatch.setattr(digest_queue, "FAILURE_PAUSES", (0.0, 0.0))
    monkeypatch.setattr(digest_programs, "SANDBOX", ("--ro-bind", "/none", "/usr"))
    body = report("u1_0", worked(digest_bridge, b"one\n"))
    for _ in range(4):
        put_off(digest_bridge, body)
    assert "the report of 'u1_0' is put off: bubblewrap can't run here; allow it to the unit" in caplog.text
    assert caplog.text.count("no digest program runs for 60 seconds") == 1
    monkeypatch.undo()
    monkeypatch.setattr("bsched_bridge.scheduler.messages.PAUSE_SECONDS", 0.0)
    digest_bridge.restart()
    assert decided(digest_bridge, body)[0] == 0


# ---- The catalogue


@pytest.fixture
def looks_each_time(monkeypatch: pytest.MonkeyPatch) -> None:
    """Has each request look at all files that the catalogue names."""
    monkeypatch.setattr(current_catalogue, "LOOK_SECONDS", 0.0)


def with_example(bridge: Bridge) -> Path:
    """Gives the application's digest program an example, and returns the catalogue."""
    example = bridge.folder / "digests" / "example"
    example.mkdir()
    (example / "out").write_text("one\n")
    path = bridge.folder / "catalogue.toml"
    path.write_text(
        path.read_text().replace(
            "\noutput_files =", '\ndigest_example = "digests/example"\noutput_files =', 1
        )
    )
    return path


def read_again(bridge: Bridge) -> None:
    """Has the bridge look at its catalogue, and waits for the end of a check."""
    bridge.application.current()
    wait_until(lambda: not bridge.catalogues._is_checking)


def test_an_edited_catalogue_waits_for_the_check_of_its_digest_programs(
    looks_each_time: None, digest_bridge: Bridge, caplog: pytest.LogCaptureFixture
) -> None:
    bridge = digest_bridge
    with_example(bridge)
    read_again(bridge)
    former = bridge.application.catalogue
    assert former.apps["sum"].digest is not None and former.apps["sum"].digest.example is not None
    replaced(bridge, "head -c 8 /dev/urandom | sha256sum")
    read_again(bridge)
    assert bridge.application.catalogue is former
    assert "the catalogue stays as it was: " in caplog.text and "prints two texts" in caplog.text
    path = bridge.folder / "catalogue.toml"
    path.write_text(path.read_text() + '\n[[app]]\nname = "plain"\n')
    read_again(bridge)
    assert bridge.application.catalogue is former  # the same fault
    board = bridge.application.faults.edit
    assert board is not None and "prints two texts" in board
    replaced(bridge, 'cat "$1"')
    read_again(bridge)
    assert "plain" in bridge.application.catalogue.apps
    assert bridge.application.faults.edit is None


def test_a_request_has_the_former_catalogue_during_a_check(
    looks_each_time: None, digest_bridge: Bridge, monkeypatch: pytest.MonkeyPatch
) -> None:
    go = threading.Event()

    def slow(*_args: object) -> None:
        assert go.wait(60)

    monkeypatch.setattr(current_catalogue, "check_digest", slow)
    former = digest_bridge.application.catalogue
    with_example(digest_bridge)
    for _ in range(3):
        assert digest_bridge.application.catalogue is former
    go.set()
    read_again(digest_bridge)
    assert digest_bridge.application.catalogue is not former


def test_a_faulty_digest_program_stops_no_other_application(
    looks_each_time: None, digest_bridge: Bridge, monkeypatch: pytest.MonkeyPatch
) -> None:
    """Neither at a start, nor when an entry of another application is edited."""
    monkeypatch.setattr(digest_programs, "SANDBOX", ("--ro-bind", "/none", "/usr"))
    body = report("u1_0", worked(digest_bridge, b"one\n"))
    digest_bridge.restart()
    digest_bridge.catalogues.check_digests()
    fault = digest_bridge.application.faults.digests["sum"]
    assert "any_order: bubblewrap can't run here; allow it to the unit" in fault
    put_off(digest_bridge, body)
    path = digest_bridge.folder / "catalogue.toml"
    path.write_text(path.read_text() + '\n[[app]]\nname = "plain"\n')
    read_again(digest_bridge)
    assert "plain" in digest_bridge.application.catalogue.apps
    assert digest_bridge.application.faults.digests == {"sum": fault}


def test_the_board_and_the_metrics_say_what_waits(
    digest_bridge: Bridge, monkeypatch: pytest.MonkeyPatch
) -> None:
    monkeypatch.setattr(digest_programs, "SANDBOX", ("--ro-bind", "/none", "/usr"))
    body = report("u1_0", worked(digest_bridge, b"one\n"))
    for _ in range(2):
        put_off(digest_bridge, body)
    digest_bridge.catalogues.check_digests()
    digest_bridge.application.faults.edit = "line 7 is wrong"
    fields: Any = {"REMOTE_ADDR": "127.0.0.1"}
    numbers = digest_bridge.got("/p/operator/metrics", **fields)[2].decode()
    assert 'bsched_bridge_reports_put_off_total{why="digest_waits"} 1.0' in numbers
    assert 'bsched_bridge_reports_put_off_total{why="digest_cannot_run"} 1.0' in numbers
    assert "bsched_bridge_catalogue_good 0.0" in numbers
    assert "bsched_bridge_faulty_digest_programs 1.0" in numbers
    form: Any = {"CONTENT_TYPE": "application/x-www-form-urlencoded", **fields}
    board = digest_bridge.got("/p/operator/board", "POST", b"key=change-this-key", **form)[2].decode()
    assert "it stays as it was: line 7 is wrong" in board
    assert "digest program of sum" in board and "its reports wait: " in board
    assert "bubblewrap can&#39;t run here" in board and "<dt>reports put off</dt><dd>2</dd>" in board


def test_the_command_checks_digest_programs(
    digest_bridge: Bridge, capsys: pytest.CaptureFixture[str]
) -> None:
    with_example(digest_bridge)
    settings = digest_bridge.folder / "bridge.toml"
    command.check(settings, None, True)
    printed = capsys.readouterr().out
    assert "the digest program of sum prints 'any_order sha256:" in printed
    assert "the digest program of sum, an empty file: it says that the files are bad" in printed
    assert "the digest program of sum, a large file: it prints 'any_order" in printed
    replaced(digest_bridge, "exit 1")
    with pytest.raises(OperatorFault, match="its status is 1"):
        command.check(settings, None, True)
    command.check(settings, None, False)  # as the unit does before its start
    assert "good: 1 applications" in capsys.readouterr().out


def test_a_disk_that_is_full_puts_the_report_off(
    digest_bridge: Bridge, monkeypatch: pytest.MonkeyPatch, caplog: pytest.LogCaptureFixture
) -> None:
    def full(*_args: object) -> None:
        raise OSError(28, "No space left on device")

    body = report("u1_0", worked(digest_bridge, b"one\n"))
    monkeypatch.setattr(queue_of(digest_bridge).jobs.__class__, "set_outcome", full)
    put_off(digest_bridge, body)
    assert "the digest of u1_0 is not stored: [Errno 28] No space left on device" in caplog.text
    monkeypatch.undo()
    monkeypatch.setattr("bsched_bridge.scheduler.messages.PAUSE_SECONDS", 0.0)
    assert decided(digest_bridge, body)[0] == 0


@pytest.mark.parametrize(
    "old, new, fault",
    [
        ("digests/any_order", "digests/none", "does not exist"),
        ("digests/any_order", "catalogue.toml", "is not a file that may be run"),
        ("digests/any_order", "digests", "is not a file that may be run"),
        (
            "\noutput_files = [",
            "\ndigest_seconds = 61\noutput_files = [",
            "digest_seconds is not within 1 to 60",
        ),
        ("\noutput_files = [", '\ndigest_example = "none"\noutput_files = [', "none does not exist"),
    ],
)
def test_faulty_catalogues(digest_bridge: Bridge, old: str, new: str, fault: str) -> None:
    path = digest_bridge.folder / "catalogue.toml"
    path.write_text(path.read_text().replace(old, new, 1))
    with pytest.raises(OperatorFault, match=fault):
        read_catalogue(path)


def test_the_check_runs_the_program_twice_on_its_example(program: Callable[..., Any], tmp_path: Path) -> None:
    folder = tmp_path / "example"
    folder.mkdir()
    (folder / "out").write_text("some words\n")
    (folder / "log").write_text("not compared\n")
    assert check_digest(program("cat"), OUT) is None
    assert check_digest(program('cat "$@"', example=folder), OUT) == "some words"
    with pytest.raises(DigestFault, match="two texts for the same files"):
        check_digest(program("head -c 8 /dev/urandom | sha256sum", example=folder), OUT)
    with pytest.raises(DigestFault, match="says that its example is bad: no"):
        check_digest(program("echo no; exit 65", example=folder), OUT)


def test_the_check_says_if_bubblewrap_can_not_run(
    program: Callable[..., Any], monkeypatch: pytest.MonkeyPatch
) -> None:
    monkeypatch.setattr(digest_programs, "SANDBOX", ("--ro-bind", "/none", "/usr"))
    with pytest.raises(DigestFault, match="bubblewrap can't run here"):
        check_digest(program("true"), OUT)
    monkeypatch.setattr(digest_programs, "BWRAP", "/none/bwrap")
    with pytest.raises(DigestFault, match="install it"):
        check_digest(program("true"), OUT)


def test_the_check_tries_odd_files(program: Callable[..., Any], tmp_path: Path) -> None:
    """Empty files, those of the example without their ends, and large ones."""
    folder = tmp_path / "example"
    folder.mkdir()
    (folder / "out").write_text("some words\n")
    files = OutputFile("out", 50, False, True), OutputFile("log", 1000, True, False)
    script = 'size=$(stat -c %s "$1"); [ $size != 0 ] || { echo none; exit 65; }; [ $size != 50 ] || exit 1'
    made = program(f'{script}; cat "$1"', example=folder)
    assert list(tried_on_odd_files(made, files)) == [
        "an empty file: it says that the files are bad ('none'), so the result is an error",
        "the first half of its example: it prints 'some'",
        "a large file: it fails (its status is 1), so the report waits; bad files need status 65",
    ]
    assert [line.partition(":")[0] for line in tried_on_odd_files(program("echo x"), files)] == [
        "an empty file",
        "a large file",
    ]
