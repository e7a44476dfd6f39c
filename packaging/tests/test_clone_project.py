"""Tests what `./run` does: which scheduler it takes, the project that it makes, its programs, and its lines
about a proof. The project is served by the plain twin.
"""
import os
import re
import signal
import socket
import subprocess
import threading
import time
import urllib.request
from collections.abc import Iterator
from contextlib import suppress
from pathlib import Path

import pytest
from bsched_files.faults import Fault
from bsched_files.project_settings import read_settings
from clone_project import folder as folders
from clone_project import needs, program, proof
from clone_project.application.longest_chain import longest, steps_of
from clone_project.client import OwnClient
from clone_project.folder import Folder
from clone_project.processes import Keeper, wait_until_free
from clone_project.program import NOTHING_PROVED, TWIN, SchedulerProgram, chosen
from clone_project.proof import Crates
from clone_project.session import Credit
from clone_project.terminal import undisturbed
from clone_project.work import JOBS, LAST_NUMBER
from hypothesis import given
from hypothesis import strategies as st
from served import free_port
from trial.programs import Program

TOP = Path(__file__).resolve().parent.parent.parent
CRATES = (TOP / "crates.txt").read_text()
SECONDS = 600  # the most that a step may take on a busy machine
PLAIN = SchedulerProgram(TWIN, NOTHING_PROVED, is_twin=True)


# ---- The application


@pytest.mark.parametrize(
    ("first", "last", "answer"),
    [(1, 1, (1, 0)), (1, 10, (9, 19)), (1, 30, (27, 111)), (1, 1000, (871, 178)), (12, 13, (12, 9))],
)
def test_the_longest_chain(first: int, last: int, answer: tuple[int, int]) -> None:
    assert longest(first, last) == answer


@given(st.integers(1, 10**6))
def test_an_even_number_has_a_step_more_than_its_half(number: int) -> None:
    assert steps_of(2 * number) == steps_of(number) + 1


# ---- The packages of Debian


def test_what_is_missing_is_named_with_the_command(monkeypatch: pytest.MonkeyPatch) -> None:
    monkeypatch.setattr(needs, "missing_packages", lambda _: ["python3-jinja2", "boinc-client"])
    monkeypatch.setattr(os, "geteuid", lambda: 1000)
    with pytest.raises(Fault, match="apt-get install .*python3-jinja2 boinc-client"):
        needs.provide(True, True)


def test_nothing_is_installed_without_a_yes(monkeypatch: pytest.MonkeyPatch) -> None:
    monkeypatch.setattr(needs, "missing_packages", lambda _: ["python3-jinja2"])
    monkeypatch.setattr(needs, "can_install", lambda: True)
    monkeypatch.setattr(needs, "is_confirmed", lambda _: False)
    with pytest.raises(Fault, match="(?s)1 package of Debian is missing.*Or run this again with --yes"):
        needs.provide(False, False)


def test_what_was_agreed_on_is_installed(monkeypatch: pytest.MonkeyPatch) -> None:
    lacks = [["python3-jinja2"], []]
    installed = list[list[str]]()
    monkeypatch.setattr(needs, "missing_packages", lambda _: lacks.pop(0))
    monkeypatch.setattr(needs, "can_install", lambda: True)
    monkeypatch.setattr(needs, "install", installed.append)
    needs.provide(False, True)
    assert installed == [["python3-jinja2"]] and not lacks


def test_a_signal_waits_for_a_step() -> None:
    """It counts once the step is over, and then the former handler has it."""
    came = list[str]()
    former = signal.signal(signal.SIGTERM, lambda *_: came.append("signal"))
    try:
        with undisturbed():
            os.kill(os.getpid(), signal.SIGTERM)
            came.append("step")
        assert came == ["step", "signal"]
    finally:
        signal.signal(signal.SIGTERM, former)


def test_what_apt_get_says_last_is_said(tmp_path: Path, monkeypatch: pytest.MonkeyPatch) -> None:
    failing = executable(tmp_path / "apt-get", "#!/bin/sh\necho first\necho E: no such package\nexit 100\n")
    monkeypatch.setattr(needs, "UPDATE", [str(failing)])
    with pytest.raises(Fault, match="can't install them: E: no such package$"):
        needs.install(["python3-jinja2"])


# ---- The scheduler


def executable(path: Path, text: str = "#!/bin/sh\n") -> Path:
    """Makes a script."""
    path.write_text(text)
    path.chmod(0o755)
    return path


@pytest.fixture
def nothing_built(tmp_path: Path, monkeypatch: pytest.MonkeyPatch) -> Path:
    """Has no built program, and no kit. Returns where the program would be built."""
    built = tmp_path / "out" / "bsched"
    monkeypatch.setattr(program, "BUILT", built)
    monkeypatch.setattr(program, "TOP", tmp_path)
    monkeypatch.setattr("shutil.which", lambda _: None)
    built.parent.mkdir()
    return built


def test_the_twin_is_called_unproved(nothing_built: Path, tmp_path: Path) -> None:
    twin = chosen(None, True, None, tmp_path / "log")
    assert (twin.path, twin.is_twin) == (TWIN, True) and "NOTHING IS PROVED" in twin.said


def test_without_a_program_and_a_kit_it_says_what_to_do(nothing_built: Path, tmp_path: Path) -> None:
    with pytest.raises(Fault, match=r"(?s)no built program, and no kit.*--program FILE.*\./run --twin"):
        chosen(None, False, None, tmp_path / "log")


def test_a_given_program_comes_before_the_built_one(nothing_built: Path, tmp_path: Path) -> None:
    executable(nothing_built)
    mine = executable(tmp_path / "mine")
    assert chosen(mine, False, None, tmp_path / "log").path == mine
    assert chosen(None, False, mine, tmp_path / "log").path == nothing_built
    nothing_built.unlink()
    assert chosen(None, False, mine, tmp_path / "log").path == mine
    mine.chmod(0o644)
    with pytest.raises(Fault, match="there is no program that can be run"):
        chosen(mine, False, None, tmp_path / "log")


def test_a_built_program_is_called_that_of_the_commit_only_if_it_is(
    nothing_built: Path, tmp_path: Path, monkeypatch: pytest.MonkeyPatch
) -> None:
    executable(nothing_built)
    monkeypatch.setattr(program, "MAKER", executable(tmp_path / "maker", "#!/bin/sh\nexit 0\n"))
    assert "proved and built of this commit" in chosen(None, False, None, tmp_path / "log").said
    other = "#!/bin/sh\necho 'packaging/program: it is not that of this commit' >&2\nexit 1\n"
    monkeypatch.setattr(program, "MAKER", executable(tmp_path / "maker", other))
    said = chosen(None, False, None, tmp_path / "log").said
    assert "proved" not in said and said.endswith("but it is not that of this commit")


# ---- A proof


def proved_lines(name: str) -> list[str]:
    """Returns lines of the kit about a crate that it proves."""
    return [
        f"rt: chose --jobs 2 for {name}",
        "so far: 1 of 9 functions checked",
        f"fn {name}::first: proved",
        "statements std: modules loaded=0 checked=0",
        f"crate {name}: modules loaded=0 checked=346",
        "logic=proved functions=9 sum=dac8208d650f15bf",
    ]


def test_a_proved_crate_needs_no_more_of_those_that_it_needs() -> None:
    crates = Crates("# a comment: of it\na: std\nb: a\nc: b\nd: a\n")
    assert [name for line in proved_lines("b") if (name := crates.read(line))] == ["b"]
    assert crates.left == {"c", "d"}


def test_a_verdict_without_a_crate_is_passed_over() -> None:
    crates = Crates("a: std\n")
    assert crates.read("logic=proved functions=9") is None
    assert crates.read("fn unknown::first: proved") is None
    assert crates.read("logic=proved functions=9") is None and crates.left == {"a"}


def test_the_last_crate_leaves_none() -> None:
    crates = Crates(CRATES)
    assert len(crates.left) == len(list((TOP / "crates").iterdir()))
    for line in proved_lines("bsched"):
        crates.read(line)
    assert not crates.left


@given(st.permutations(sorted(Crates(CRATES).needed)))
def test_in_any_order_each_crate_has_a_line(names: list[str]) -> None:
    lines = list(proof.progress(Crates(CRATES), [line for name in names for line in proved_lines(name)]))
    assert [line.split()[2] for line in lines] == names
    assert lines[-1].endswith(f" 0 of {len(names)} crates remain")


def test_what_the_kit_says_last_is_said(tmp_path: Path, capsys: pytest.CaptureFixture[str]) -> None:
    (tmp_path / "crates.txt").write_text("a: std\nb: a\n")
    log = tmp_path / "trial" / "proof.log"
    lines = "\n".join([*proved_lines("a"), "rt: b NOT PROVED"])
    maker = executable(tmp_path / "maker", f"#!/bin/sh\ncat << 'END'\n{lines}\n\nEND\nexit 1\n")
    with pytest.raises(Fault, match="rt: b NOT PROVED: see .*proof.log"):
        proof.build(tmp_path, maker, log)
    assert "a is proved; 1 of 2 crates remain" in capsys.readouterr().out
    assert log.read_text().startswith(lines)


# ---- The project


def test_the_files_of_a_project(tmp_path: Path) -> None:
    """They have what the bridge, the tools and the clients need, and keys of their own."""
    made = Folder(tmp_path / "twin")
    half = tmp_path / ".twin.new"
    half.mkdir()
    (half / "left").touch()
    folders.make(made, PLAIN)
    assert not half.exists() and not (made.path / "left").exists()
    assert made.path.stat().st_mode & 0o777 == 0o700
    settings = read_settings(made.bridge / "bridge.toml")
    assert settings.url == made.url and "nothing is proved" in settings.name
    assert settings.welcome is not None and "NOTHING IS PROVED" in settings.welcome
    assert settings.accounts is not None and settings.accounts.is_name_told
    assert settings.operator_key == made.operator_key != made.user_key
    assert made.signing_key.exists() and (made.path / "project.db").exists()
    ranges = [tuple(map(int, path.read_text().split())) for path in sorted(made.inputs.iterdir())]
    assert len(ranges) == JOBS and ranges[0][0] == 1 and ranges[-1][1] == LAST_NUMBER
    assert all(before[1] + 1 == after[0] for before, after in zip(ranges, ranges[1:]))
    other = Folder(tmp_path / "other")
    folders.make(other, PLAIN)
    assert made.user_key != other.user_key and made.operator_key != other.operator_key


def test_a_program_has_another_name_on_the_pages(tmp_path: Path) -> None:
    made = Folder(tmp_path / "project")
    folders.make(made, SchedulerProgram(TWIN, "a stand-in for bsched"))
    settings = read_settings(made.bridge / "bridge.toml")
    assert settings.name == "Trial" and settings.welcome is not None
    assert "Its scheduler is bsched." in settings.welcome and "PROVED" not in settings.welcome


def test_a_program_that_refuses_leaves_no_project(tmp_path: Path) -> None:
    made = Folder(tmp_path / "project")
    refusing = executable(tmp_path / "refusing", "#!/bin/sh\necho bsched: settings\nexit 1\n")
    with pytest.raises(Fault, match="the project can't be made: .*bsched: settings"):
        folders.make(made, SchedulerProgram(refusing, "it refuses"))
    assert not made.path.exists()


def test_the_folder_of_another_user_is_refused(tmp_path: Path, monkeypatch: pytest.MonkeyPatch) -> None:
    monkeypatch.setattr(os, "geteuid", lambda: tmp_path.stat().st_uid + 1)
    with pytest.raises(Fault, match="it belongs to the user"):
        Folder(tmp_path).check_owner()
    with pytest.raises(Fault, match="is being made"):
        Folder(tmp_path / "twin").check_owner()


# ---- Programs that are kept running


def test_a_taken_port_is_named(tmp_path: Path, monkeypatch: pytest.MonkeyPatch) -> None:
    monkeypatch.setattr("clone_project.processes.FREE_SECONDS", 0.1)
    with socket.create_server(("127.0.0.1", free_port())) as listener:
        port = listener.getsockname()[1]
        with pytest.raises(Fault, match=f"another program listens on port {port}"):
            wait_until_free(Program("bridge", ["true"], tmp_path, port))


def test_what_ends_again_and_again_is_given_up(tmp_path: Path) -> None:
    port = free_port()
    lines = f"import socket\nsocket.create_server(('127.0.0.1', {port})).accept()\n"
    keeper = Keeper()
    try:
        keeper.add(Program("short", ["/usr/bin/python3", "-c", lines], tmp_path, port))
        until = time.monotonic() + SECONDS
        with pytest.raises(Fault, match=r"short ends again and again: see .*short\.log"):
            while time.monotonic() < until:
                keeper.look()
    finally:
        keeper.end()


# ---- The client


def test_a_client_that_attached_before_joins_no_second_time(
    tmp_path: Path, monkeypatch: pytest.MonkeyPatch
) -> None:
    attached = list[OwnClient]()
    monkeypatch.setattr(OwnClient, "attach", lambda client: attached.append(client))
    assert OwnClient(tmp_path, "http://127.0.0.1:9/", "key", 9).join()
    (tmp_path / "client" / "account_127.0.0.1_9.xml").touch()
    client = OwnClient(tmp_path, "http://127.0.0.1:9/", "key", 9)
    assert not client.join() and len(attached) == 1
    assert client.seen_credit() is None  # nobody answers


def test_the_first_credit_has_a_line_and_each_change_has_one(
    tmp_path: Path, monkeypatch: pytest.MonkeyPatch, capsys: pytest.CaptureFixture[str]
) -> None:
    credits = [None, 0.0, 0.1, 0.1, 0.25]
    monkeypatch.setattr(OwnClient, "seen_credit", lambda _: credits.pop(0))
    credit = Credit(OwnClient(tmp_path, "http://127.0.0.1:9/", "key", 9), True)
    while credits:
        credit.next = 0.0
        credit.look()
    lines = [line.split("s  ", 1)[1] for line in capsys.readouterr().out.splitlines()]
    assert len(lines) == 2 and lines[0].startswith("the first credit of the client, ")
    assert lines[0].endswith(": 0.1") and lines[1] == "the credit of the client: 0.25"


# ---- The whole


class Run:
    """A run of the twin, in a folder of the test."""

    def __init__(self, folder: Path) -> None:
        words: list[str | Path] = [TOP / "run", "--twin", "--folder", folder]
        self.process = subprocess.Popen(
            words, stdin=subprocess.DEVNULL, stdout=subprocess.PIPE, stderr=subprocess.STDOUT, text=True
        )
        self.lines = list[str]()
        self.limit = threading.Timer(SECONDS, self.process.kill)
        self.limit.start()

    def until(self, part: str) -> str:
        """Reads lines until one has this text, and returns it."""
        assert self.process.stdout is not None
        for line in self.process.stdout:
            self.lines.append(line)
            if part in line:
                return line
        raise AssertionError("".join(self.lines))

    def end(self, number: int) -> int:
        """Sends a signal, and returns the exit status."""
        self.limit.cancel()
        self.process.send_signal(number)
        rest, _ = self.process.communicate(timeout=SECONDS)
        self.lines.append(rest)
        return self.process.returncode


@pytest.fixture
def runs(tmp_path: Path) -> Iterator[list[Run]]:
    """Yields a list of runs. All of them are ended."""
    started = list[Run]()
    yield started
    for one in started:
        with suppress(ProcessLookupError):
            one.end(signal.SIGTERM)


def page(url: str) -> str:
    """Returns a page."""
    with urllib.request.urlopen(url, timeout=SECONDS) as response:
        body: bytes = response.read()
    return body.decode()


def scheduler_of(folder: Path) -> int:
    """Returns the number of the scheduler's process."""
    name = f"{TWIN} serve --tables project.db --port {Folder(folder / 'twin').port('PORT')}"
    found = subprocess.run(["pgrep", "-f", name], capture_output=True, text=True, timeout=60).stdout.split()
    return int(found[0])


def test_a_project_runs_is_killed_and_continues(tmp_path: Path, runs: list[Run]) -> None:
    """All pages say that nothing is proved. After a kill of all of it, of its scheduler alone, and after an
    end in order the same project is there."""
    first = Run(tmp_path)
    runs.append(first)
    url = first.until("The page of the project:").split()[-1]
    for path in ("", "status", "users", "computers", "teams", "account"):
        assert "nothing is proved" in page(url + path), path
    told = re.sub(r"\s+", " ", "".join(first.lines))
    assert "NOTHING IS PROVED" in told and "an application and its jobs are in the project" in told
    other = Run(tmp_path)
    runs.append(other)
    other.until("another ./run has")
    assert other.process.wait(SECONDS) == 1
    os.kill(scheduler_of(tmp_path), signal.SIGKILL)
    first.until("bsched had ended, and was started again")
    progress: list[str | Path] = [tmp_path / "twin" / "tools", "progress", "--batch", "first"]
    done = subprocess.run(progress, capture_output=True, text=True, timeout=SECONDS, check=True)
    assert f"waiting  {JOBS}" in done.stdout
    until = time.monotonic() + SECONDS
    while f"of {JOBS} workunits are done" not in page(url):
        assert time.monotonic() < until
        time.sleep(0.2)
    assert first.end(signal.SIGKILL) == -signal.SIGKILL

    second = Run(tmp_path)
    runs.append(second)
    second.until("continues")
    assert second.until("The page of the project:").split()[-1] == url
    assert "nothing is proved" in page(url)
    assert second.end(signal.SIGINT) == 0 and second.lines[-1].endswith("ended in order\n")
    for port in ("PORT", "BRIDGE_PORT"):
        with pytest.raises(ConnectionRefusedError):
            socket.create_connection(("127.0.0.1", Folder(tmp_path / "twin").port(port)))


def test_fresh_removes_a_project_only_if_that_is_confirmed(tmp_path: Path) -> None:
    kept = tmp_path / "twin" / "project.db"
    kept.parent.mkdir()
    kept.touch()
    words: list[str | Path] = [TOP / "run", "--twin", "--folder", tmp_path, "--fresh"]
    done = subprocess.run(words, stdin=subprocess.DEVNULL, capture_output=True, text=True, timeout=SECONDS)
    assert done.returncode == 1 and "removes it only if you confirm" in done.stderr and kept.exists()
