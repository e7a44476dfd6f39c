"""A machine whose projects bsched-project makes: folders of a test, and functions of the shell."""
import contextlib
import os
import shutil
import subprocess
from pathlib import Path

PACKAGING = Path(__file__).resolve().parent.parent
TOP = PACKAGING.parent
SERVICE, EXAMPLE, TEMPLATE = PACKAGING / "service", TOP / "bridge" / "example", PACKAGING / "project"
# in place of the programs that need root or an installed package
STUBS = f"""
chown() {{ :; }}
chgrp() {{ :; }}
id() {{ echo 0; }}
runuser() {{ shift 3; "$@"; }}
bsched() {{ echo tables > project.db; }}
bsched-bridge() {{
  PYTHONPATH={TOP}/bridge:{TOP}/files PYTHONDONTWRITEBYTECODE=1 /usr/bin/python3 -m bsched_bridge "$@"
}}
"""


class Machine:
    """A folder of projects, and what the packages install."""

    def __init__(self, folder: Path) -> None:
        self.projects, self.templates, self.folder = folder / "projects", folder / "templates", folder
        self.projects.mkdir()
        shutil.copytree(TEMPLATE, self.templates / "project")
        shutil.copytree(PACKAGING / "nginx", self.templates / "nginx")
        (self.templates / "example").mkdir()
        for file in (*EXAMPLE.glob("*.csv"), EXAMPLE / "settings.toml"):
            shutil.copy(file, self.templates / "example")
        (self.templates / "example" / "bridge").mkdir()
        shutil.copy(EXAMPLE / "bridge.toml", self.templates / "example" / "bridge")

    def command(self, *args: str, stubs: str = "") -> list[str]:
        """Returns the command line that runs bsched-project."""
        script = (
            f". {PACKAGING}/bsched-project\n"
            f"PROJECTS={self.projects} TEMPLATES={self.templates} SERVICE={SERVICE}\n"
            f'TURN_SECONDS=0\n{STUBS}{stubs}\nmain "$@"\n'
        )
        return ["bash", "-c", script, "bsched-project", *args]

    def make(self, *args: str, stubs: str = "") -> "subprocess.CompletedProcess[str]":
        """Runs bsched-project without a terminal."""
        command = self.command(*args, stubs=stubs)
        return subprocess.run(command, stdin=subprocess.DEVNULL, capture_output=True, text=True, timeout=600)

    def answered(self, answers: str, *args: str) -> tuple[int, str]:
        """Runs bsched-project on a terminal, types the answers, and returns its status and what it shows."""
        leader, terminal = os.openpty()
        process = subprocess.Popen(self.command(*args), stdin=terminal, stdout=terminal, stderr=terminal)
        os.close(terminal)
        os.write(leader, answers.encode())
        shown = b""
        with contextlib.suppress(OSError):  # the end of a terminal is an error
            while part := os.read(leader, 65536):
                shown += part
        os.close(leader)
        return process.wait(600), shown.decode().replace("\r", "")

    def settings(self, line: str) -> str:
        """Writes a file of settings with this line for the operator's key."""
        path = self.folder / "settings.toml"
        text = (EXAMPLE / "settings.toml").read_text()
        path.write_text(text.replace('operator_key = "change-this-key"', line))
        return str(path)

    def key(self, name: str) -> str:
        """Returns the key of a project, as the units read it."""
        command = [SERVICE / "operator-key", self.projects / name / "settings.toml"]
        return subprocess.run(command, capture_output=True, text=True, timeout=600, check=True).stdout.strip()
