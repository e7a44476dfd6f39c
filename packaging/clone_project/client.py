"""A BOINC client of its own, in a folder of the project. The system's client has no part in it."""
import subprocess
from pathlib import Path

from trial.programs import Client

NAME = "client"


class OwnClient(Client):
    """BOINC's client in a folder that stays from run to run."""

    def __init__(self, folder: Path, url: str, key: str, port: int) -> None:
        super().__init__(NAME, key, url, folder, port)

    @property
    def is_attached(self) -> bool:
        """Whether it knows the project, from a former run."""
        return any(self.home.glob("account_*.xml"))

    def join(self) -> bool:
        """Attaches the client to the project, unless it is attached already. Returns whether it was not."""
        if self.is_attached:
            return False
        self.attach()
        return True

    def seen_credit(self) -> float | None:
        """Returns its credit. Returns None if the client does not answer."""
        try:
            return self.credit()
        except (OSError, subprocess.SubprocessError):
            return None


def command_to_join(url: str, key: str) -> str:
    """Returns the command by which another client on this computer joins."""
    home = "$HOME/bsched_client"
    return (
        f'mkdir -p "{home}" && boinc --dir "{home}" --allow_multiple_clients --skip_cpu_benchmarks '
        f"--gui_rpc_port 31500 --attach_project {url} {key}"
    )
