"""What the trials share: the programs of a project, waiting, and a network and a folder of their own."""
import os
import shutil
import signal
import subprocess
import sys
import tempfile
import time
from collections.abc import Callable
from pathlib import Path

from bsched_files.file_names import FIRST, plain_result, result_in_file

from . import project
from .needs import missing
from .programs import Bridge, Client, Program, Scheduler, TrialFault
from .proxy import Message, Proxy

CLIENTS_PORT, BRIDGE_PORT, CALLS_PORT, SCHEDULER_PORT, GUI_PORT = 8081, 8082, 8083, 8084, 31501
URL = f"http://127.0.0.1:{CLIENTS_PORT}/"
STEP_SECONDS = 300  # how long a client may take for one step
MOST_SECONDS, END_SECONDS = 1800, 60  # for the steps of a trial, and for its end
NEEDED = {"boinc": "boinc-client", "boinccmd": "boinc-client", "unshare": "util-linux", "ip": "iproute2"}
INSIDE, KEEP = "--inside", "--keep"
VALUED = "--file=", "--root="


def value_of(option: str) -> str | None:
    """Returns the value of an option such as `--file=`, or None."""
    return next((word.removeprefix(option) for word in sys.argv[1:] if word.startswith(option)), None)


FILE = int(value_of("--file=") or FIRST)  # the number of bsched's file in the project
ROOT = value_of("--root=")  # the folder of another Debian, whose client is tried
began = time.monotonic()


def seen(text: str) -> None:
    """Prints what was seen, and after how many seconds."""
    print(f"{time.monotonic() - began:6.1f} s  {text}", flush=True)


def wants(is_so: object, what: str) -> None:
    """Ends the trial if something is not so."""
    if not is_so:
        raise TrialFault(what)


def is_request_of(client: Client, part: str = "") -> Callable[[Message], bool]:
    """Returns the test for a request of a client, in XML or JSON, that has this text in it."""
    key, text = client.authenticator.encode(), part.encode()
    return lambda message: key in message.body and text in message.body


def known(result: str) -> str:
    """Returns the name by which clients know a result."""
    return result_in_file(result, FILE)


def workunit_of(result: str) -> str:
    """Returns bsched's name of the workunit of a result that has a client's name."""
    return plain_result(result).rpartition("_")[0]


class Run:
    """The programs of a trial: bsched, the bridge between two proxies, and clients."""

    proxy_port = CLIENTS_PORT  # of the proxy before the bridge

    def __init__(self, program: str, folder: Path):
        self.folder = folder
        project.make(folder, URL, BRIDGE_PORT, CALLS_PORT)
        self.scheduler = Scheduler(program, folder, SCHEDULER_PORT, project.OPERATOR_KEY, FILE)
        self.bridge = Bridge(folder, BRIDGE_PORT, file=FILE)
        self.programs: list[Program] = [self.bridge, self.scheduler]

    def begin(self) -> None:
        """Makes the project and starts bsched, the proxies and the bridge."""
        self.scheduler.order("create", "--settings", "settings.toml", "--tables", "project.db")
        for kind in project.IMPORTS:
            words = (
                "import",
                "--tables",
                "project.db",
                "--kind",
                kind,
                "--batch",
                "first",
                "--file",
                f"{kind}.csv",
            )
            self.scheduler.order(*words)
        self.bridge.order("keygen")
        signature = self.bridge.order("sign", "files/sum_1", "--key", "code_sign_private")
        (self.folder / "sum_1.signature").write_text(signature)
        self.scheduler.start()
        self.before_bridge = Proxy(self.proxy_port, BRIDGE_PORT)
        self.behind_bridge = Proxy(CALLS_PORT, SCHEDULER_PORT)
        self.bridge.start()

    def client(self, name: str, authenticator: str) -> Client:
        """Returns a new client, which ends with the other programs."""
        count = sum(isinstance(program, Client) for program in self.programs)
        made = Client(name, authenticator, URL, self.folder, GUI_PORT + count, ROOT)
        self.programs.insert(0, made)
        return made

    def end(self) -> None:
        """Ends all programs, and gives the ports of the proxies back."""
        for program in self.programs:
            program.kill()
        for proxy in (getattr(self, "before_bridge", None), getattr(self, "behind_bridge", None)):
            if proxy is not None:
                proxy.close()

    def give(self, name: str, quorum: int, errors: int = 3) -> None:
        """Imports a workunit while bsched serves."""
        self.scheduler.asked(f"/import/workunits/{name}", project.workunit(name, quorum, errors))

    def until(self, is_so: Callable[[], object], what: str, *callers: Client) -> None:
        """Waits until something is so. Meanwhile these clients call."""
        ends = time.monotonic() + STEP_SECONDS
        while not is_so():
            wants(time.monotonic() < ends, f"{what}: not so after {STEP_SECONDS} seconds")
            for client in callers:
                client.update()
            for _ in range(8):
                time.sleep(0.5)
                if is_so():
                    break

    def run(self) -> None:
        """Runs all steps."""
        raise NotImplementedError


def too_long(_number: int, _frame: object) -> None:
    """Ends a trial that takes too long."""
    raise TrialFault(f"the trial has run for {MOST_SECONDS} seconds")


def status_inside(script: str) -> int:
    """Runs the same script in a network of its own, where it may mount disks, and returns its status."""
    network = ["unshare", "-n", "-m"] if os.geteuid() == 0 else ["unshare", "-r", "-n", "-m"]
    words = [*network, sys.executable, os.path.abspath(script), INSIDE, *sys.argv[1:]]
    try:
        return subprocess.run(words, timeout=MOST_SECONDS + END_SECONDS).returncode
    except subprocess.TimeoutExpired:
        print(f"bridge/{Path(script).name}: the trial does not end, and was killed", file=sys.stderr)
        return 1


def enter_network() -> None:
    """Makes the network ready that belongs to this process alone, and limits how long the trial takes."""
    subprocess.run(["ip", "link", "set", "lo", "up"], check=True, timeout=10)
    for place in ("/tmp", "/proc", "/dev") if ROOT is not None else ():
        subprocess.run(["mount", "--bind", place, f"{ROOT}{place}"], check=True, timeout=10)
    signal.signal(signal.SIGALRM, too_long)
    signal.alarm(MOST_SECONDS)


def run_part(script: str, program: str | Path, part: str, kind: Callable[[str, Path], Run]) -> bool:
    """Runs a part of a trial in a folder of its own. Returns whether all is good."""
    name = Path(script).name
    folder = Path(tempfile.mkdtemp(prefix=f"bridge_{name}_"))
    trial: Run | None = None
    try:
        trial = kind(os.path.abspath(program), folder)
        trial.run()
    except (TrialFault, OSError, subprocess.SubprocessError) as fault:
        print(f"bridge/{name}: {part}: {fault}\nthe files are in {folder}", file=sys.stderr)
        return False
    finally:
        if trial is not None:
            trial.end()
    if KEEP in sys.argv:
        seen(f"the files are in {folder}")
    else:
        shutil.rmtree(folder)
    return True


def main(
    script: str, usage: str | None, kinds: dict[str, type[Run]], more_needed: dict[str, str] | None = None
) -> int:
    """Runs the parts of a trial, or one of them, in a network of its own."""
    words = [word for word in sys.argv[1:] if word not in (INSIDE, KEEP) and not word.startswith(VALUED)]
    program, chosen = words[:1], words[1:] or list(kinds)
    is_program = bool(program) and os.access(program[0], os.X_OK) and not os.path.isdir(program[0])
    if not is_program or not set(chosen) <= kinds.keys():
        print(usage, file=sys.stderr)
        return 64
    if lacks := missing({**NEEDED, **(more_needed or {})}):
        print(f"bridge/{Path(script).name}: it needs from Debian: {' '.join(lacks)}", file=sys.stderr)
        return 1
    if INSIDE not in sys.argv:
        return status_inside(script)
    enter_network()
    for part in chosen:
        if not run_part(script, program[0], part, kinds[part]):
            return 1
    print("good")
    return 0
