"""What `./run` needs from Debian, and how that is installed."""
import os
import shlex
import shutil
import subprocess

from bsched_files.faults import Fault
from trial.needs import MODULES, missing

from .terminal import is_confirmed, say, undisturbed

PACKAGES_OF_MODULES = {**MODULES, "prometheus_client": "python3-prometheus-client"}
COMMANDS = {"setsid": "util-linux", "setpriv": "util-linux", "git": "git"}
CLIENT = "boinc-client"
CLIENT_COMMANDS = {"boinc": CLIENT, "boinccmd": CLIENT}
INSTALL_SECONDS = 1200
UPDATE = ["apt-get", "-o", "Acquire::http::Timeout=20", "update"]
INSTALL = ["apt-get", "-o", "DPkg::Lock::Timeout=120", "install", "-y", "--no-install-recommends"]
ADVICE = "apt-get update && apt-get install --no-install-recommends"


def missing_packages(has_client: bool) -> list[str]:
    """Returns the packages of Debian that are missing. Only a client of its own needs that of BOINC."""
    return missing({**COMMANDS, **(CLIENT_COMMANDS if has_client else {})}, PACKAGES_OF_MODULES)


def advice(packages: list[str], is_root: bool) -> str:
    """Returns what to do if packages are missing. Root on Debian may have `./run` install them."""
    what = "package of Debian is" if len(packages) == 1 else "packages of Debian are"
    lines = [f"{len(packages)} {what} missing. As root, this installs what is needed:"]
    lines.append(f"  {ADVICE} {shlex.join(packages)}")
    if is_root:
        lines.append("Or run this again with --yes.")
    if CLIENT in packages:
        lines.append(
            f"The service {CLIENT} is not needed: `systemctl mask {CLIENT}` before keeps it from starting."
        )
    return "\n".join(lines)


def can_install() -> bool:
    """Returns whether this process may install packages of Debian."""
    return os.geteuid() == 0 and shutil.which("apt-get") is not None


def mask_client() -> None:
    """Keeps the service of BOINC's client from starting when its package is installed. Without systemd there
    is nothing to mask."""
    if shutil.which("systemctl") is None:
        return
    done = subprocess.run(["systemctl", "mask", CLIENT], capture_output=True, timeout=60)
    if done.returncode == 0:
        say(f"the service {CLIENT} is masked: `systemctl unmask {CLIENT}` lets it start again")


def install(packages: list[str]) -> None:
    """Installs packages of Debian. A signal waits for apt-get, which would leave them half installed."""
    if CLIENT in packages:
        mask_client()
    environment = {**os.environ, "DEBIAN_FRONTEND": "noninteractive"}
    for words in (UPDATE, [*INSTALL, *packages]):
        say(shlex.join(words))
        try:
            with undisturbed():
                done = subprocess.run(
                    words,
                    env=environment,
                    stdin=subprocess.DEVNULL,
                    stdout=subprocess.PIPE,
                    stderr=subprocess.STDOUT,
                    text=True,
                    errors="replace",
                    timeout=INSTALL_SECONDS,
                    start_new_session=True,
                )
        except subprocess.TimeoutExpired:
            raise Fault(f"{words[0]} has run for {INSTALL_SECONDS} seconds, and was stopped") from None
        if done.returncode:
            said = done.stdout.strip().splitlines() or ["it says nothing"]
            raise Fault(f"{words[0]} can't install them: {said[-1]}")


def provide(has_client: bool, is_agreed: bool) -> None:
    """Makes sure that everything is there. As root on Debian it installs what is missing, if that is agreed
    on beforehand or on the terminal. Otherwise it is a fault that says what to do."""
    packages = missing_packages(has_client)
    if not packages:
        return
    if not can_install() or not (is_agreed or is_confirmed(f"Install {' '.join(packages)}?")):
        raise Fault(advice(packages, can_install()))
    install(packages)
    if packages := missing_packages(has_client):
        raise Fault(f"these packages are installed, and still can't be used: {' '.join(packages)}")
