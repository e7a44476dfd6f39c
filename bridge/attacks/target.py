"""The project that is attacked, and what is measured of its programs.

nginx has the lines of the package with their limits, and gunicorn the command of the unit. The project has
accounts of honest volunteers, one of an attacker, and three applications: `sum` has an output file,
`digested` has one that a digest program reads, and `plain` has none.
"""
import os
import re
import shutil
import sqlite3
import tempfile
import time
from collections.abc import Iterable
from pathlib import Path

from bsched_bridge.people.hosts import Key
from bsched_bridge.uploads.handed_out import HandedJob, HandedOut
from bsched_bridge.uploads.tables import UploadTables
from bsched_files.catalogue import OutputFile
from trial import project
from trial.behind_nginx import Project
from trial.programs import TrialFault

GOOD = [f"good{number}" for number in range(20)]  # accounts of honest volunteers
ATTACKER = "mallory"
MOST_FILE = 20_000_000  # bytes of an output file
MOST_BYTES, MOST_ACCOUNT_BYTES = 300_000_000, 30_000_000  # of the folder of uploads, and of an account in it
ADDRESS_FIELD = 'address_field = "X-Real-IP"\n'
SITE6 = "2001:db8"  # a network of IPv6 that is this machine's own, if it runs in a network of its own
# SQLite writes its log anew from the front once it has 1,000 pages
LOG_BYTES = 1000 * (4096 + 24) + 32
ACCESS_LOG = "nginx_access.log"
HONEST = "honest"  # begins the names of honest uploads
LONGER = {"daily_result_quota = 100": "daily_result_quota = 100000", "max_hosts = 100": "max_hosts = 10000"}
MORE_AT_ONCE = {
    "max_wus_in_progress = 4": "max_wus_in_progress = 100",
    "max_wus_to_send = 2": "max_wus_to_send = 20",
}
APPS = ("plain", "digested")
# what each project has alike
MADE = ("project.db*", "code_sign_*", "sum_1.signature")
VERSION = """
[[version]]
app = "{app}"
platform = "x86_64-pc-linux-gnu"
version_num = 1
files = [{{ name = "sum_1", signature = "sum_1.signature", main_program = true }}]
"""
DIGESTED = """
[[app]]
name = "digested"
digest = "digest"
digest_seconds = 10
output_files = [{ open_name = "out", max_nbytes = 1000 }]
"""
# a digest program whose time and status are those that the file says, and so are its processes and their MB
DIGEST = """\
#!/bin/sh
read -r seconds status processes megabytes < "$1" || exit 65
for _ in $(seq "${processes:-0}"); do
    /usr/bin/python3 -c "x = b'x' * ($megabytes * 10**6); import time; time.sleep($seconds)" &
done
sleep "$seconds"
[ "$status" = 0 ] || exit "$status"
echo good
"""


def replaced(path: Path, texts: dict[str, str]) -> None:
    """Replaces texts in a file. Each must be there."""
    text = path.read_text()
    for old, new in texts.items():
        if old not in text:
            raise TrialFault(f"{path.name} has no {old!r}")
        text = text.replace(old, new, 1)
    path.write_text(text)


def address_of(number: int) -> str:
    """Returns one of many addresses of this machine."""
    return f"127.0.{number // 200 + 1}.{number % 200 + 1}"


def address6_of(network: int, number: int = 1) -> str:
    """Returns an address in one of many networks of 64 bits, which are all of one network of 48 bits."""
    return f"{SITE6}:1:{network:x}::{number:x}"


class Target(Project):
    """A project behind nginx and gunicorn that is attacked."""

    def __init__(self, program: str, folder: Path, has_ipv6: bool, accounts: Iterable[str] = ()) -> None:
        """Makes the files of the project in a folder. More accounts are further ones of attackers."""
        super().__init__(program, folder, MOST_FILE, has_limits=True)
        self.has_ipv6, self.tables = has_ipv6, folder / "uploads" / "uploads.db"
        self.accounts = tuple(accounts)
        listens = f"listen 127.0.0.1:{self.port};"
        more = f" listen [::]:{self.port};" if has_ipv6 else ""
        # Debian's nginx writes these logs
        log = f"    access_log {folder}/{ACCESS_LOG};\n    client_body"
        logs = {"    access_log off;\n    client_body": log}
        logs[f"{folder}/nginx_quiet.log"] = "/dev/null crit"
        replaced(folder / "nginx.conf", {listens: listens + more, **logs})
        replaced(
            folder / "bridge.toml",
            {
                "most_from_address = 10\n": f"most_from_address = 10\n{ADDRESS_FIELD}",
                "most_bytes = 1_000_000_000_000\n": f"most_bytes = {MOST_BYTES}\n"
                f"most_account_bytes = {MOST_ACCOUNT_BYTES}\n",
                "vain_seconds = 1000\n": "most_hosts = 100\n",
            },
        )
        replaced(folder / "settings.toml", {**LONGER, **MORE_AT_ONCE})
        for kind, rows in (
            ("accounts", [f"{key},{key}\n" for key in (*GOOD, ATTACKER)]),
            ("apps", [f"{app},exact\n" for app in APPS]),
            ("versions", [f"{app},x86_64-pc-linux-gnu,1\n" for app in APPS]),
        ):
            with (folder / f"{kind}.csv").open("a") as file:
                file.writelines(rows)
        (folder / "digest").write_text(DIGEST)
        (folder / "digest").chmod(0o755)
        with (folder / "catalogue.toml").open("a") as catalogue:
            catalogue.write(DIGESTED + '\n[[app]]\nname = "plain"\n')
            catalogue.writelines(VERSION.format(app=app) for app in APPS)

    def start_with(self, made: Path) -> None:
        """Starts all programs with the tables of a folder. If it has none, they are made and copied there."""
        if not made.exists():
            self.make_tables()
            new = Path(tempfile.mkdtemp(dir=made.parent))
            copy_made(self.folder, new)
            new.rename(made)
        else:
            copy_made(made, self.folder)
        self.start_programs()
        if self.accounts:
            rows = "".join(f"{key},{key}\n" for key in self.accounts)
            self.scheduler.asked("/import/accounts/attackers", f"authenticator,name\n{rows}")

    def give(self, app: str, names: Iterable[str]) -> None:
        """Imports workunits of an application. Each needs one result."""
        rows = [project.workunit(name, 1, 3).removeprefix(project.WORKUNITS) for name in names]
        text = project.WORKUNITS + "".join(rows).replace(",sum,", f",{app},")
        self.scheduler.asked(f"/import/workunits/{app}{time.monotonic_ns()}", text)

    def hand_out(self, account: str, count: int, host: str = "", prefix: str = "w") -> list[str]:
        """Notes jobs of an account, 25 for each of its hosts, as given out. Returns the names of their
        files.
        """
        files = (OutputFile("out", self.most, False, True),)
        results = [f"{prefix}{account}{number}_0" for number in range(count)]
        deadline = int(time.time()) + 86400
        tables = UploadTables(self.tables)
        try:
            HandedOut(tables).add(
                HandedJob(result, Key(account, host or f"c{number // 25}"), "sum", files, deadline)
                for number, result in enumerate(results)
            )
        finally:
            tables.close()
        return [f"{result}_0" for result in results]

    def end_jobs(self, names: Iterable[str]) -> None:
        """Notes that the jobs with these files were reported as errors."""
        tables = UploadTables(self.tables)
        try:
            HandedOut(tables).end([name.removesuffix("_0") for name in names], int(time.time()))
        finally:
            tables.close()

    # ---- What is measured

    def bridge_memory(self) -> int:
        """Returns the most memory that the bridge's process has had since this was asked last, in MB."""
        return self.memory()

    def processor_time(self) -> float:
        """Returns the processor seconds of the bridge, with its digest programs, and of bsched so far."""
        return sum(seconds_of(number) for number in (*self.gunicorn.processes(), *self.scheduler.processes()))

    def disk_bytes(self) -> int:
        """Returns how many bytes the project has on the disk: its files, and those without a name that nginx
        and the bridge have open. The logs of SQLite count only beyond what they have at any time. Honest
        uploads don't count, nor does nginx's log: it has a line for each message that is passed on.
        """
        total = 0
        for top, _, names in os.walk(self.folder):
            for name in names:
                if name == ACCESS_LOG or name.startswith(HONEST):
                    continue
                path = Path(top, name)
                try:
                    size = path.stat().st_size
                except OSError:
                    continue
                total += max(0, size - LOG_BYTES) if name.endswith("-wal") else size
        return total + sum(map(unnamed_bytes, self.open_processes()))

    def open_processes(self) -> list[int]:
        """Returns the numbers of the processes of nginx and gunicorn."""
        return [*self.nginx.processes(), *self.gunicorn.processes()]

    def settle_logs(self) -> None:
        """Has what is in SQLite's logs written into the files, as far as nobody reads there."""
        for path in (self.folder / "bridge.db", self.tables, self.folder / "project.db"):
            if path.exists():
                connection = sqlite3.connect(path, timeout=10)
                try:
                    connection.execute("PRAGMA wal_checkpoint(PASSIVE)").fetchall()
                except sqlite3.Error:
                    pass  # somebody writes; then it is measured as it is
                finally:
                    connection.close()

    def pending_bytes(self, account: str = "") -> int:
        """Returns how many bytes the uploads have that are not reported, of an account or of all."""
        pattern = f"w{account}*" if account else "*"
        return sum(path.stat().st_size for path in (self.folder / "uploads" / "pending").glob(pattern))

    def bridge_log(self) -> str:
        """Returns what gunicorn and the bridge wrote to their log."""
        return self.gunicorn.log()

    def restart_bridge(self) -> None:
        """Starts gunicorn again, after it was killed, and waits until the bridge answers."""
        self.gunicorn.start()
        self.wait_for_bridge()

    def kill_bridge(self) -> None:
        """Kills gunicorn and its worker."""
        for number in self.gunicorn.processes():
            os.kill(number, 9)
        if self.gunicorn.process is not None:
            self.gunicorn.process.wait(60)


def copy_made(folder: Path, to: Path) -> None:
    """Copies what each project has alike."""
    for pattern in MADE:
        for path in folder.glob(pattern):
            shutil.copy(path, to)


def seconds_of(process: int) -> float:
    """Returns the processor seconds of a process and of those of its children that have ended."""
    try:
        fields = Path(f"/proc/{process}/stat").read_text().rpartition(")")[2].split()
    except OSError:
        return 0.0
    return sum(map(int, fields[11:15])) / os.sysconf("SC_CLK_TCK")


def unnamed_bytes(process: int) -> int:
    """Returns how many bytes the files have that a process has open and that have no name."""
    total = 0
    try:
        for path in Path(f"/proc/{process}/fd").iterdir():
            try:
                if re.search(r" \(deleted\)\Z", os.readlink(path)) and path.is_file():
                    total += path.stat().st_size
            except OSError:
                continue
    except OSError:
        return total
    return total
