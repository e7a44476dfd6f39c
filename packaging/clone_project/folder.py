"""The files of the trial project: a folder as bsched-project makes it, for the tools, with a client's key.

It is made under another name, and gets its own once everything is in it. So a run that was killed leaves no
half of a project.
"""
import os
import secrets
import shutil
import subprocess
import sys
from dataclasses import dataclass
from pathlib import Path
from typing import Any

import tomlkit
from bsched_files.faults import Fault
from bsched_files.ports import BRIDGE, SCHEDULER, read_port
from served import free_port
from tomlkit.items import Table
from trial.programs import Bridge, Scheduler, TrialFault

from .program import TOP, SchedulerProgram
from .work import JOB_SECONDS, LAST_NUMBER, write_inputs

TEMPLATES = TOP / "packaging" / "project"
SETTINGS = TOP / "packaging" / "library" / "settings.sh"
CLIENT = "CLIENT_PORT"  # in the file environment: the port of the client's own commands
USER = "Ann"
DELAY = 5  # seconds between two calls of a client
LEAST_PROCESSORS, MOST_PROCESSORS = 16, 256
MEGABYTE = 1_000_000
TITLE, TWIN_TITLE = "Trial", "Trial of the plain twin: nothing is proved"
ABOUT = f"""\
This trial project runs on one computer. It looks for the number up to {LAST_NUMBER:,} whose Collatz chain
is longest. A chain leads from a number to its half if it is even, and else to three times the number plus
one, until it is 1.
"""
ABOUT_PROGRAM = "Its scheduler is bsched.\n"
ABOUT_TWIN = """\
NOTHING IS PROVED of what you see here: the scheduler is not bsched, but its plain twin in Python, which was
written to compare the two.
"""
TOOLS = """\
#!/bin/sh
# The operator's tools for the project in this folder, such as `tools progress`.
set -eu
folder=$(cd "$(dirname "$0")" && pwd)/
command=${{1:---help}}
[ "$#" -eq 0 ] || shift
case $command in -* | check) set -- "$command" "$@" ;; *) set -- "$command" --project "$folder" "$@" ;; esac
PYTHONPATH='{path}' PYTHONDONTWRITEBYTECODE=1 exec {python} -P -m bsched_tools "$@"
"""


@dataclass(frozen=True, slots=True)
class Folder:
    """The folder of a trial project."""

    path: Path

    @property
    def bridge(self) -> Path:
        """The folder of the bridge."""
        return self.path / "bridge"

    @property
    def tools(self) -> Path:
        """The command of the operator's tools for this project."""
        return self.path / "tools"

    @property
    def inputs(self) -> Path:
        """The folder of the inputs of the jobs."""
        return self.path / "inputs"

    @property
    def counts(self) -> Path:
        """The file of the counts that the project's page shows."""
        return self.path / "units" / "counts.json"

    @property
    def has_work(self) -> Path:
        """A file that says that the application and its jobs are in the project."""
        return self.path / "has_work"

    @property
    def signing_key(self) -> Path:
        """The private key for code signing."""
        return self.bridge / "code_sign_private"

    @property
    def user_key(self) -> str:
        """The key of the account by which clients join."""
        return (self.path / "accounts.csv").read_text().splitlines()[1].partition(",")[0]

    @property
    def operator_key(self) -> str:
        """The operator's key."""
        return str(tomlkit.parse((self.path / "settings.toml").read_text())["operator_key"])

    @property
    def program_file(self) -> Path:
        """The file with the path of the program that the project had last."""
        return self.path / "program"

    @property
    def former_program(self) -> Path | None:
        """The program that the project had last, or None."""
        return Path(self.program_file.read_text().strip()) if self.program_file.exists() else None

    def port(self, name: str) -> int:
        """Returns a port: that of the scheduler, of the bridge or of the client."""
        return read_port(self.path, name)

    @property
    def url(self) -> str:
        """The URL by which clients know the project."""
        return url_of(self.port(BRIDGE))

    def check_owner(self) -> None:
        """Refuses a folder that is not made yet, and one of another user: its files would get two owners."""
        if not self.path.exists():
            raise Fault(f"{self.path} is being made: run this again in some seconds")
        status = self.path.stat()
        if status.st_uid != os.geteuid():
            raise Fault(f"{self.path}: it belongs to the user {status.st_uid}: run this as that user")


def url_of(port: int) -> str:
    """Returns the URL of a bridge on this computer."""
    return f"http://127.0.0.1:{port}/"


def settings_text(operator_key: str) -> str:
    """Returns the settings, which bsched-project would choose for short jobs and this computer's processors.
    Only the delay between two calls is shorter."""
    processors = min(max(os.cpu_count() or 1, LEAST_PROCESSORS), MOST_PROCESSORS)
    script = '. "$1" && DELAY=$2 && settings_for "$3" "$4"'
    words = [str(SETTINGS), str(DELAY), str(JOB_SECONDS), str(processors)]
    done = subprocess.run(
        ["bash", "-euc", script, "bash", *words], capture_output=True, text=True, check=True, timeout=60
    )
    return done.stdout.replace("change-this-key", operator_key)


def write_environment(folder: Path) -> dict[str, int]:
    """Chooses the ports, and writes them into the folder. Returns them by their names."""
    ports = {name: free_port() for name in (SCHEDULER, BRIDGE, CLIENT)}
    (folder / "environment").write_text("".join(f"{name}={port}\n" for name, port in ports.items()))
    return ports


def changed(document: tomlkit.TOMLDocument, table: str, **values: Any) -> None:
    """Changes members of a table."""
    part = document[table]
    assert isinstance(part, Table)
    part.update(values)


def template(name: str, replaced: dict[str, str]) -> tomlkit.TOMLDocument:
    """Returns a template of bsched-project, with words in the place of its own."""
    text = (TEMPLATES / name).read_text()
    for old, new in replaced.items():
        text = text.replace(old, new)
    return tomlkit.parse(text)


def write_units(folder: Path, name: str) -> None:
    """Writes what the tools read of a project: where its copies are."""
    units = template("units.toml", {"@NAME@": name})
    changed(units, "copy", folder="copies", check=False)
    changed(units, "page", folder="report")
    changed(units, "statistics", folder="statistics")
    (folder / "units.toml").write_text(tomlkit.dumps(units))


def write_bridge(folder: Path, name: str, ports: dict[str, int], key: str, is_twin: bool) -> None:
    """Writes the folder of the bridge, which lets everybody on this computer join."""
    made = folder / "bridge"
    (made / "files").mkdir(parents=True)
    replaced = {
        '"@NAME@"': f'"{TWIN_TITLE if is_twin else TITLE}"',
        "@NAME@": name,
        "@URL@": url_of(ports[BRIDGE]),
        "@PORT@": str(ports[SCHEDULER]),
        "@BRIDGE_PORT@": str(ports[BRIDGE]),
        "@KEY@": key,
    }
    settings = template("bridge/bridge.toml", replaced)
    settings.add("welcome", tomlkit.item("welcome.txt"))
    settings.add("retry_delay", tomlkit.item(DELAY))
    changed(settings, "accounts", names="told", most_from_address=100)
    accounts = settings["accounts"]
    assert isinstance(accounts, Table)
    accounts.remove("address_field")
    uploads = {
        "most_bytes": 1000 * MEGABYTE,
        "most_result_bytes": 10 * MEGABYTE,
        "free_bytes": 100 * MEGABYTE,
    }
    changed(settings, "uploads", **uploads)
    (made / "bridge.toml").write_text(tomlkit.dumps(settings))
    catalogue = template("bridge/catalogue.toml", {"@NAME@": name})
    (made / "catalogue.toml").write_text(tomlkit.dumps(catalogue))
    (made / "welcome.txt").write_text(f"{ABOUT}\n{ABOUT_TWIN if is_twin else ABOUT_PROGRAM}")


def write_tools(path: Path) -> None:
    """Writes the command of the operator's tools."""
    packages = ":".join(str(TOP / name) for name in ("tools", "files", "bridge"))
    path.write_text(TOOLS.format(path=packages.replace("'", "'\\''"), python=sys.executable))
    path.chmod(0o755)


def write_files(folder: Path, name: str, program: SchedulerProgram) -> None:
    """Writes all files of a project, with tables that have one account."""
    operator_key, user_key = secrets.token_hex(16), secrets.token_hex(16)
    (folder / "settings.toml").write_text(settings_text(operator_key))
    ports = write_environment(folder)
    write_units(folder, name)
    write_bridge(folder, name, ports, operator_key, program.is_twin)
    (folder / "submitted").mkdir()
    (folder / "units").mkdir(mode=0o700)
    (folder / "accounts.csv").write_text(f"authenticator,name\n{user_key},{USER}\n")
    write_inputs(folder / "inputs")
    scheduler = Scheduler(str(program.path), folder, ports[SCHEDULER], operator_key)
    scheduler.order("create", "--settings", "settings.toml", "--tables", "project.db")
    words = ["--kind", "accounts", "--batch", "accounts", "--file", "accounts.csv"]
    scheduler.order("import", "--tables", "project.db", *words)
    Bridge(folder / "bridge", ports[BRIDGE]).order("keygen")


def make(folder: Folder, program: SchedulerProgram) -> None:
    """Makes the project. Only its owner may read its keys."""
    new = folder.path.with_name(f".{folder.path.name}.new")
    if new.exists():
        shutil.rmtree(new)
    new.mkdir(mode=0o700, parents=True)
    try:
        write_files(new, folder.path.name, program)
    except (TrialFault, subprocess.SubprocessError) as fault:
        raise Fault(f"the project can't be made: {fault}") from None
    new.rename(folder.path)
