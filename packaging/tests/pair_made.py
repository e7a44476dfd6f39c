"""The pair of the tests."""
from ipaddress import IPv4Address, IPv4Interface
from pathlib import Path

from bsched_pair.pair import Machine, Pair, Vote

HOME = Path("/var/lib/bsched/sums")
ALPHA = Machine("alpha", IPv4Address("10.77.0.1"), IPv4Address("10.77.1.1"))
BETA = Machine("beta", IPv4Address("10.77.0.2"), IPv4Address("10.77.1.2"))
PAIR = Pair(
    "sums",
    (ALPHA, BETA),
    Vote("gamma", IPv4Address("10.77.0.3")),
    IPv4Interface("10.77.0.100/24"),
    Path("/dev/vg0/sums"),
    Path("/dev/watchdog"),
)
