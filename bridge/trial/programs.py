"""The programs of a trial: bsched, the bridge and the clients."""
import os
import re
import subprocess
import sys
import urllib.request
from pathlib import Path

from bsched_files.file_names import FIRST, result_in_file
from served import NotStarted, start, stop

START_SECONDS, ORDER_SECONDS = 120, 120
BRIDGE = Path(__file__).resolve().parent.parent
TOP = BRIDGE.parent
PACKAGES = f"{BRIDGE}:{TOP / 'files'}:{TOP / 'tools'}"
CLIENT_OPTIONS = ["--allow_multiple_clients", "--skip_cpu_benchmarks", "--no_gpus", "--no_info_fetch"]
CLIENT_CONFIG = """\
<cc_config>
<log_flags>
<sched_ops>1</sched_ops><task>1</task><file_xfer>1</file_xfer><sched_op_debug>1</sched_op_debug>
</log_flags>
<options><ncpus>2</ncpus></options>
</cc_config>
"""
PREFERENCES = "<global_preferences><suspend_cpu_usage>0</suspend_cpu_usage></global_preferences>\n"


class TrialFault(Exception):
    """Raised if something is wrong."""


class Program:
    """A program that runs, writes to a log, and can be killed and started again."""

    def __init__(
        self, name: str, words: list[str], folder: Path, port: int, environment: dict[str, str] | None = None
    ):
        self.name, self.words, self.folder, self.port = name, words, folder, port
        self.environment = {**os.environ, **(environment or {})}
        self.process: subprocess.Popen[bytes] | None = None

    def start(self) -> None:
        """Starts the program, and waits until it listens."""
        path = self.folder / f"{self.name}.log"
        with path.open("ab") as log:
            try:
                self.process = start(self.words, self.port, START_SECONDS, self.folder, self.environment, log)
            except NotStarted:
                raise TrialFault(f"{self.name} does not start, see {path}") from None

    def log(self) -> str:
        """Returns what the program wrote to its log."""
        return (self.folder / f"{self.name}.log").read_text(errors="replace")

    def processes(self) -> list[int]:
        """Returns the numbers of the program's process and of those that it has started."""
        if self.process is None:
            raise TrialFault(f"{self.name} does not run")
        number = self.process.pid
        found = subprocess.run(["pgrep", "-P", str(number)], capture_output=True, text=True).stdout
        return [number, *map(int, found.split())]

    def kill(self) -> None:
        """Kills the program, which gets no time to do anything."""
        if self.process is not None:
            stop(self.process)


class Scheduler(Program):
    """A bsched with its tables in a file, which has a number in the project."""

    def __init__(self, program: str, folder: Path, port: int, operator_key: str, file: int = FIRST):
        words = [program, "serve", "--tables", "project.db", "--port", str(port), "--count", "100000"]
        super().__init__("bsched", words, folder, port)
        self.program, self.operator_key, self.file = program, operator_key, file

    def order(self, *words: str) -> str:
        """Runs a subcommand, and returns what it prints."""
        completed = subprocess.run(
            [self.program, *words], cwd=self.folder, capture_output=True, text=True, timeout=ORDER_SECONDS
        )
        if completed.returncode:
            raise TrialFault(
                f"bsched {' '.join(words)}: status {completed.returncode}, "
                f"{completed.stdout}{completed.stderr}"
            )
        return completed.stdout

    def asked(self, path: str, body: str | None = None) -> str:
        """Returns the answer to an operator's message."""
        message = urllib.request.Request(
            f"http://127.0.0.1:{self.port}{path}",
            None if body is None else body.encode(),
            {"x-operator-key": self.operator_key},
        )
        with urllib.request.urlopen(message, timeout=30) as response:
            answer: bytes = response.read()
        return answer.decode()

    def statement(self, host: int) -> dict[str, list[str]]:
        """Returns the lines of a host's statement, by the names by which clients know the results. The last
        one is that of the total.
        """
        *lines, total = [line.split(",") for line in self.asked(f"/hosts/{host}").splitlines()[1:]]
        found = {result_in_file(line[0], self.file): line[1:] for line in lines}
        return {**found, total[0]: total[1:]}


class Bridge(Program):
    """The bridge."""

    def __init__(self, folder: Path, port: int, code: Path = BRIDGE, file: int = FIRST):
        module = ["bsched_bridge"] if file == FIRST else ["trial.later_file", str(file)]
        words = [sys.executable, "-m", *module, "--config", "bridge.toml"]
        super().__init__(
            "bridge",
            words,
            folder,
            port,
            {"PYTHONPATH": f"{code}:{code.parent / 'files'}:{PACKAGES}", "PYTHONDONTWRITEBYTECODE": "1"},
        )

    def order(self, *words: str) -> str:
        """Runs a subcommand, and returns what it prints."""
        return subprocess.run(
            [sys.executable, "-m", "bsched_bridge", *words],
            cwd=self.folder,
            env=self.environment,
            check=True,
            capture_output=True,
            text=True,
            timeout=ORDER_SECONDS,
        ).stdout


class Client(Program):
    """BOINC's client of a user. It may be that of another Debian, in a root folder."""

    def __init__(
        self, name: str, authenticator: str, url: str, folder: Path, port: int, root: str | None = None
    ):
        self.within = [] if root is None else ["chroot", root]
        self.home = folder / name
        self.home.mkdir(mode=0o700, exist_ok=True)
        (self.home / "cc_config.xml").write_text(CLIENT_CONFIG)
        (self.home / "global_prefs_override.xml").write_text(PREFERENCES)
        words = [*self.within, "boinc", "--dir", str(self.home), "--gui_rpc_port", str(port), *CLIENT_OPTIONS]
        super().__init__(name, words, folder, port)
        self.authenticator, self.url = authenticator, url
        self.output = ""  # what boinccmd printed about an account

    def command(self, *words: str) -> str:
        """Runs boinccmd, and returns what it prints."""
        password = (self.home / "gui_rpc_auth.cfg").read_text().strip()
        completed = subprocess.run(
            [*self.within, "boinccmd", "--host", f"127.0.0.1:{self.port}", "--passwd", password, *words],
            cwd=self.home,
            capture_output=True,
            text=True,
            timeout=30,
        )
        return completed.stdout + completed.stderr

    def attach(self) -> None:
        """Attaches the client to the project."""
        self.command("--project_attach", self.url, self.authenticator)

    def create_account(self, email: str, password: str, name: str) -> str | None:
        """Makes an account at the project. Returns its key, or None if the client gets no key."""
        return self._account_key("--create_account", self.url, email, password, name)

    def look_up(self, email: str, password: str) -> str | None:
        """Looks an account up. Returns its key, or None."""
        return self._account_key("--lookup_account", self.url, email, password)

    def _account_key(self, *words: str) -> str | None:
        """Returns the key that boinccmd prints."""
        self.output = self.command(*words)
        found = re.search(r"account key: (\S+)", self.output)
        return found[1] if found else None

    def credit(self) -> float:
        """Returns the credit of this machine at the project, as the client shows it."""
        output = self.command("--get_project_status").partition(f"master URL: {self.url}\n")[2]
        found = re.search(r"host_total_credit: (\S+)", output)
        return float(found[1]) if found else 0.0

    def notices(self) -> str:
        """Returns the notices that the client has for its Manager."""
        return self.command("--get_notices", "0")

    def update(self) -> None:
        """Has the client call its project as soon as it can."""
        self.command("--project", self.url, "update")

    def tasks(self) -> dict[str, str]:
        """Returns the results that the client has, with the client's own state of each."""
        output = self.command("--get_tasks")
        return dict(re.findall(r"^   name: (\S+)$.*?^   state: ([^\n]*)$", output, re.MULTILINE | re.DOTALL))

    def downloads(self) -> bool:
        """Returns whether files of a task are still being downloaded. The client retries a broken download
        only minutes later, and asks for no job until then.
        """
        return any(state in ("new", "downloading") for state in self.tasks().values())

    def rename(self, host_cpid: str) -> None:
        """Stops the client, and starts it again with another host_cpid."""
        self.kill()
        state = self.home / "client_state.xml"
        state.write_text(
            re.sub("<host_cpid>.*?</host_cpid>", f"<host_cpid>{host_cpid}</host_cpid>", state.read_text())
        )
        self.start()
