"""What a machine of a pair lacks, and in what it differs from the other one."""
import hashlib
import json
import pwd
import re
import socket
import subprocess
from collections.abc import Callable, Iterator
from dataclasses import asdict, dataclass
from pathlib import Path
from typing import Any

from .machine import ASK_SECONDS
from .pair import Fault, Pair, Times
from .steps import CLUSTER, INSTALLED, KEY, PACKAGES, started_outside
from .units import is_enabled, possible_units

USER = "bsched"
MOST_STATE_BYTES = 1_000_000  # of what the other machine says of itself
NGINX = (
    "/etc/nginx/conf.d/bsched-limits.conf",
    "/etc/nginx/conf.d/bsched-{project}.conf",
    "/etc/nginx/snippets/bsched-{project}.conf",
)
CERTIFICATE = re.compile(r"^\s*ssl_certificate(?:_key)?\s+([^;\s]+);", re.MULTILINE)
WATCHDOG_TIME = re.compile(r"^SBD_WATCHDOG_TIMEOUT=(\d{1,6})\s*$", re.MULTILINE)
VOTE_TIME = re.compile(r"^\s*sync_timeout:\s*(\d{1,9})\s*$", re.MULTILINE)


@dataclass(frozen=True, slots=True)
class State:
    """What must be alike on both machines."""

    machine: str
    versions: dict[str, str]  # of packages; of one that is missing, an empty text
    user: str  # the numbers of the user and of the group of the project
    files: dict[str, str]  # each with its SHA-256; of one that is missing, an empty text

    def text(self) -> str:
        """Returns it as JSON."""
        return json.dumps(asdict(self), indent=2, sort_keys=True) + "\n"

    @classmethod
    def read(cls, text: str) -> "State":
        """Reads what another machine printed."""
        try:
            members = json.loads(text)
            machine, user = members["machine"], members["user"]
            texts, versions, files = [machine, user], members["versions"], members["files"]
            for each in (versions, files):
                texts += [*each.keys(), *each.values()]
        except (ValueError, RecursionError, KeyError, TypeError, AttributeError):
            raise Fault(
                "the state of the other machine can't be read: `bsched-project pair --state NAME`"
            ) from None
        if not all(isinstance(one, str) and one.isprintable() for one in texts):
            raise Fault("the state of the other machine can't be read: it has more than plain texts")
        return cls(machine, versions, user, files)


def said(*command: str, is_status_good: Callable[[int], bool] = lambda status: status == 0) -> str:
    """Returns what a command prints. One that fails says nothing."""
    try:
        done = subprocess.run(command, capture_output=True, text=True, timeout=ASK_SECONDS, check=False)
    except (OSError, subprocess.TimeoutExpired):
        return ""
    return done.stdout.strip() if is_status_good(done.returncode) else ""


def version_of(package: str) -> str:
    """Returns the version of an installed package."""
    status, _, version = said(
        "dpkg-query", "--show", "--showformat=${db:Status-Abbrev}|${Version}", package
    ).partition("|")
    return version if status.startswith("ii") else ""


def numbers_of(user: str) -> str:
    """Returns the numbers of a user and of its group."""
    try:
        entry = pwd.getpwnam(user)
    except KeyError:
        return ""
    return f"{entry.pw_uid}:{entry.pw_gid}"


def digest_of(path: Path) -> str:
    """Returns the SHA-256 of a file."""
    try:
        with path.open("rb") as file:
            return hashlib.file_digest(file, "sha256").hexdigest()
    except OSError:
        return ""


def text_of(path: Path) -> str:
    """Returns the text of a file. One that can't be read is empty."""
    try:
        return path.read_text(encoding="utf-8")
    except (OSError, ValueError):
        return ""


def files_outside(project: str, root: Path) -> list[str]:
    """Returns the files that a project needs outside of its folder. A site names its certificate."""
    paths = [str(path) for path in (*INSTALLED.values(), KEY)]
    sites = [one.format(project=project) for one in NGINX]
    for site in sites:
        paths += [site, *CERTIFICATE.findall(text_of(root / site.lstrip("/")))]
    units = root / "etc/systemd/system"
    for pattern in (f"bsched*@{project}.*.d/*", "bsched*@.*.d/*"):
        paths += ["/" + str(found.relative_to(root)) for found in sorted(units.glob(pattern))]
    return sorted(set(paths))


def state_of(project: str, root: Path = Path("/")) -> State:
    """Returns the state of this machine."""
    files = {path: digest_of(root / path.lstrip("/")) for path in files_outside(project, root)}
    versions = {name: version_of(name) for name in PACKAGES}
    return State(socket.gethostname(), versions, numbers_of(USER), files)


def differences(here: State, there: State) -> Iterator[str]:
    """Yields in what two machines differ."""
    if here.machine == there.machine:
        yield f"both states are of {here.machine}: take that of the other machine"
        return
    if here.user != there.user:
        yield (
            f"the user {USER} is {here.user or 'missing'} on {here.machine}, and {there.user or 'missing'} "
            f"on {there.machine}: files on the disk have an owner by number"
        )
    for name in sorted(here.versions | there.versions):
        one, other = here.versions.get(name, ""), there.versions.get(name, "")
        if one != other:
            yield f"{name}: {one or 'missing'} on {here.machine}, {other or 'missing'} on {there.machine}"
    for name in sorted(here.files | there.files):
        one, other = here.files.get(name, ""), there.files.get(name, "")
        if bool(one) != bool(other):
            yield f"{name} is missing on {there.machine if one else here.machine}"
        elif one != other:
            yield f"{name} is another file on {there.machine}"


def installed_times(root: Path = Path("/")) -> Times | str:
    """Returns the times that count on this machine, or which one is not known."""
    seconds: list[int] = []
    for name, path, pattern in (
        ("SBD_WATCHDOG_TIMEOUT", INSTALLED["sbd"], WATCHDOG_TIME),
        ("sync_timeout", INSTALLED["corosync.conf"], VOTE_TIME),
    ):
        found = pattern.findall(text_of(root / str(path).lstrip("/")))
        if not found:
            return f"{path} does not say {name}"
        seconds.append(int(found[-1]))
    for name in ("stonith-watchdog-timeout", "stonith-timeout"):
        value = said(
            "crm_attribute", "--type", "crm_config", "--name", name, "--query", "--quiet"
        ).removesuffix("s")
        if not value.isdecimal():
            return f"the cluster does not say {name}: `crm_mon -1` says whether it runs"
        seconds.append(int(value))
    return Times(seconds[0], -(-seconds[1] // 1000), seconds[2], seconds[3])


def missing_votes() -> Iterator[str]:
    """Yields that a vote is missing. Corosync answers root alone."""
    printed = said(
        "corosync-quorumtool", "-s", is_status_good=lambda _status: True
    )  # without a majority it fails
    votes = [re.search(rf"^{name} votes: +(\d+)", printed, re.MULTILINE) for name in ("Total", "Expected")]
    total, expected = (None if one is None else int(one[1]) for one in votes)
    if total is None or expected is None:
        yield "Corosync does not say which votes are there: `corosync-quorumtool -s`"
    elif total < expected:
        yield f"{total} of {expected} votes are there, and the project needs two: `corosync-quorumtool -s`"


def faults_of_set_up(pair: Pair, written: Path, root: Path = Path("/")) -> Iterator[str]:
    """Yields what this machine lacks. The files of the pair are in a folder."""
    name = socket.gethostname()
    if name not in (machine.name for machine in pair.machines):
        yield f"this machine is {name}, and no machine of the pair"
    for package in PACKAGES:
        if not version_of(package):
            yield f"the package {package} is not installed"
    if not numbers_of(USER):
        yield f"there is no user {USER}"
    for file, place in INSTALLED.items():
        if digest_of(root / str(place).lstrip("/")) != digest_of(written / file):
            yield f"{place} is not the file {written / file}"
    if not digest_of(root / str(KEY).lstrip("/")):
        yield f"there is no {KEY}: copy it from the other machine"
    if not pair.watchdog.is_char_device():
        yield f"{pair.watchdog} is no watchdog: a machine that hangs is not reset"
    for unit in started_outside(possible_units(pair.project)):
        if is_enabled(unit):
            yield f"{unit} starts at a boot, and the cluster alone may start it: `systemctl disable {unit}`"
    for unit in ("sbd", *CLUSTER):
        if not is_enabled(unit):
            yield f"{unit} does not start at a boot: `systemctl enable {unit}`"
    yield from missing_votes()
    times = installed_times(root)
    yield from [times] if isinstance(times, str) else times.faults()


def read_other(path: Path) -> State:
    """Reads the state of the other machine, from a file or from /dev/stdin."""
    with path.open("rb") as file:
        text = file.read(MOST_STATE_BYTES + 1)
    if len(text) > MOST_STATE_BYTES:
        raise Fault("the state of the other machine is too large")
    members: Any = text.decode("utf-8", "replace")
    return State.read(members)
