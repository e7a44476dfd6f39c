"""The command line of `bridge/try_attacks`."""
import argparse
import os
import subprocess
import sys
import tempfile
import time
from collections.abc import Sequence
from pathlib import Path

from trial.programs import BRIDGE, TrialFault
from trial.needs import missing

from .attack import Attack
from .runs import SLOW_TIMES, try_attack
from .table import ATTACKS
from .target import SITE6

INSIDE = "--inside"
TWIN = BRIDGE / "trial" / "twin"
NEEDED = {
    "nginx": "nginx-light",
    "gunicorn": "gunicorn",
    "bwrap": "bubblewrap",
    "unshare": "util-linux",
    "ip": "iproute2",
    "pgrep": "procps",
    "openssl": "openssl",
}


def described(attack: Attack) -> str:
    """Returns the line of an attack in the list."""
    most = attack.may
    processor = (
        "" if most.processor_seconds is None else f", {most.processor_seconds:g} s of processor a minute"
    )
    disk = f"{most.disk_bytes / 10**6:g} MB of disk"
    slow = " (slow)" if attack.is_slow else ""
    return f"{attack.name}{slow}: {attack.who} {attack.does}. At most {most.memory_mb} MB{processor}, {disk}"


def chosen(names: Sequence[str], is_slow: bool) -> list[Attack]:
    """Returns the attacks with some names, or all. Raises ValueError."""
    known = {attack.name: attack for attack in ATTACKS}
    if unknown := [name for name in names if name not in known]:
        raise ValueError(f"there is no attack {', '.join(unknown)}; --list prints them")
    return [known[name] for name in names] or [one for one in ATTACKS if is_slow or not one.is_slow]


def enter_network() -> bool:
    """Makes the network ready that belongs to this process alone. Returns whether it has IPv6."""
    subprocess.run(["ip", "link", "set", "lo", "up"], check=True, timeout=10)
    words = ["ip", "-6", "route", "add", "local", f"{SITE6}::/32", "dev", "lo"]
    try:
        Path("/proc/sys/net/ipv6/ip_nonlocal_bind").write_text("1")
        subprocess.run(words, check=True, timeout=10, capture_output=True)
    except (OSError, subprocess.SubprocessError):
        return False
    return True


def try_all(attacks: Sequence[Attack], args: argparse.Namespace, made: Path, has_ipv6: bool) -> int:
    """Does attacks one after the other, and prints what was seen. Returns how many failed."""
    failed, times = 0, SLOW_TIMES if args.slow else 1
    for attack in attacks:
        if attack.needs_ipv6 and not has_ipv6:
            print(f"{attack.name}: not run, since this machine has no IPv6", flush=True)
            continue
        began = time.monotonic()
        try:
            ended = try_attack(attack, args.program, made, has_ipv6, times, args.keep)
        except (TrialFault, OSError, subprocess.SubprocessError) as fault:
            failed += 1
            print(f"{attack.name}: FAILED: {fault}", flush=True)
            continue
        print(f"{attack.name}: {ended.costs} ({time.monotonic() - began:.0f} s)", flush=True)
        if ended.seen:
            print(f"  {ended.seen}", flush=True)
        for text in ended.faults:
            print(f"  FAILED: {text}", flush=True)
        failed += bool(ended.faults)
    return failed


def main(script: str, usage: str | None) -> int:
    """Does what the command line says."""
    parser = argparse.ArgumentParser(description=usage, formatter_class=argparse.RawDescriptionHelpFormatter)
    parser.add_argument("names", nargs="*", metavar="PROGRAM | ATTACK")
    parser.add_argument("--list", action="store_true", help="prints the attacks")
    parser.add_argument("--slow", action="store_true", help="does the slow ones, too, and each for longer")
    parser.add_argument("--keep", action="store_true", help="keeps the folders")
    parser.add_argument(INSIDE, action="store_true", help=argparse.SUPPRESS, dest="inside")
    args = parser.parse_args()
    if args.list:
        print("\n".join(described(attack) for attack in ATTACKS))
        return 0
    names = list(args.names)
    is_built = bool(names) and names[0] not in {attack.name for attack in ATTACKS}
    args.program = os.path.abspath(names.pop(0)) if is_built else str(TWIN)
    if not os.access(args.program, os.X_OK) or os.path.isdir(args.program):
        parser.error(f"there is no program at {args.program}, nor an attack of this name")
    try:
        attacks = chosen(names, args.slow)
    except ValueError as fault:
        parser.error(str(fault))
    if lacks := missing(NEEDED):
        print(f"bridge/try_attacks: it needs from Debian: {' '.join(lacks)}", file=sys.stderr)
        return 1
    if not args.inside:
        network = ["unshare", "-n", "-m"] if os.geteuid() == 0 else ["unshare", "-r", "-n", "-m"]
        return subprocess.run([*network, sys.executable, script, INSIDE, *sys.argv[1:]]).returncode
    program = "the plain scheduler, not the built program" if args.program == str(TWIN) else args.program
    print(f"against {program}; load {os.getloadavg()[0]:.1f} on {os.cpu_count()} cores", flush=True)
    with tempfile.TemporaryDirectory(prefix="bridge_attacks_") as folder:
        failed = try_all(attacks, args, Path(folder, "made"), enter_network())
    print(
        f"{failed} of {len(attacks)} attacks failed" if failed else f"good: {len(attacks)} attacks",
        flush=True,
    )
    return 1 if failed else 0
