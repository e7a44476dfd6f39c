"""The files of DRBD, Corosync, sbd and Pacemaker for a pair."""
from collections.abc import Iterable, Iterator
from pathlib import Path

from .pair import TOKEN_MILLISECONDS, Machine, Pair
from .units import START_SECONDS, STOP_SECONDS, Unit

PORT = 7789  # of DRBD, on the link
# The machine with the most points gets the project. One with less than none never does, so each has some.
ANYWHERE = 20_000  # of each machine
STAY = 200  # of the machine that has the project, for each member of the group
BLIND = 10_000  # less for one that does not see the third machine: more than a whole group has for its stay


def resource(pair: Pair, secret: str) -> str:
    """Returns the resource of DRBD (drbd.conf(5)). A write is done once both disks have it (protocol C). If
    the machines don't see each other, writes wait until the other one is known not to have the project.
    """
    hosts = "".join(
        f"  on {machine.name} {{ address {machine.link}:{PORT}; }}\n" for machine in pair.machines
    )
    return (
        "resource bsched {\n"
        "  protocol C;\n"
        f"  device /dev/drbd0; disk {pair.disk}; meta-disk internal;\n"
        "  disk { on-io-error detach; fencing resource-and-stonith; }\n"
        f'  net {{ cram-hmac-alg sha256; shared-secret "{secret}"; }}\n'
        "  handlers {\n"
        '    fence-peer "/usr/lib/drbd/crm-fence-peer.sh --timeout 60 --dc-timeout 40";\n'
        '    after-resync-target "/usr/lib/drbd/crm-unfence-peer.sh";\n'
        "  }\n"
        f"{hosts}"
        "}\n"
    )


def node(machine: Machine, number: int) -> str:
    """Returns a node of Corosync. It has both networks: one of them is enough to hear each other."""
    return (
        "  node {\n"
        f"    name: {machine.name}\n"
        f"    nodeid: {number}\n"
        f"    ring0_addr: {machine.address}\n"
        f"    ring1_addr: {machine.link}\n"
        "  }\n"
    )


def corosync(pair: Pair) -> str:
    """Returns the file of Corosync (corosync.conf(5)). Two of three votes go on."""
    assert pair.vote is not None  # a pair without it is refused
    nodes = "".join(node(machine, number) for number, machine in enumerate(pair.machines, 1))
    return (
        "totem {\n"
        "  version: 2\n"
        f"  cluster_name: bsched-{pair.project}\n"
        "  transport: knet\n"
        f"  token: {TOKEN_MILLISECONDS}\n"
        "  crypto_cipher: aes256\n"
        "  crypto_hash: sha256\n"
        "}\n"
        f"nodelist {{\n{nodes}}}\n"
        "quorum {\n"
        "  provider: corosync_votequorum\n"
        "  device {\n"
        "    model: net\n"
        "    votes: 1\n"
        f"    sync_timeout: {1000 * pair.times.sync}\n"
        "    net {\n"
        f"      host: {pair.vote.address}\n"
        "      algorithm: ffsplit\n"
        "    }\n"
        "  }\n"
        "}\n"
    )


def watchdog(pair: Pair) -> str:
    """Returns the settings of sbd (sbd(8)): the watchdog resets a machine that hangs or has lost its vote."""
    return (
        "SBD_PACEMAKER=yes\n"
        "SBD_STARTMODE=always\n"
        f"SBD_WATCHDOG_DEV={pair.watchdog}\n"
        f"SBD_WATCHDOG_TIMEOUT={pair.times.watchdog}\n"
    )


def primitive(unit: Unit) -> str:
    """Returns the resource of a unit."""
    operation = f"op stop interval=0 timeout={STOP_SECONDS} op monitor interval=60"
    if not unit.is_timer:
        operation = f"op start interval=0 timeout={START_SECONDS} op monitor interval=10"
    return f"primitive {unit.name} systemd:{unit.unit.removesuffix('.service')} {operation}\n"


def cluster(pair: Pair, units: Iterable[Unit], folder: Path) -> str:
    """Returns the resources of Pacemaker, for `crm configure load update`. The folder of the project, its
    units, nginx and the address are one group, on the machine whose disk is the primary one. A
    machine that does not see the third one has probably lost the network of the clients: the project then
    moves to the other machine, if that one sees it. What is not known yet moves nothing.
    """
    assert pair.vote is not None  # a pair without it is refused
    units = list(units)
    # in the order of their start: clients need no timer
    services, timers = (
        [unit.name for unit in units if unit.is_timer is is_timer] for is_timer in (False, True)
    )
    members = " ".join(["folder", *services, "web", "address", *timers])
    times = pair.times
    return (
        f"property stonith-enabled=true stonith-watchdog-timeout={times.fence} "
        f"stonith-timeout={times.stonith} no-quorum-policy=suicide\n"
        f"rsc_defaults resource-stickiness={STAY} migration-threshold=3 failure-timeout=300\n"
        "primitive disk ocf:linbit:drbd params drbd_resource=bsched "
        "op start interval=0 timeout=240 op stop interval=0 timeout=100 "
        "op monitor role=Promoted interval=5 timeout=60 op monitor role=Unpromoted interval=11 timeout=60 "
        "op promote interval=0 timeout=90 op demote interval=0 timeout=90\n"
        "clone disks disk meta promotable=true promoted-max=1 clone-max=2 notify=true\n"
        f"primitive folder ocf:heartbeat:Filesystem params device=/dev/drbd0 directory={folder} fstype=ext4 "
        "options=noatime op start interval=0 timeout=60 op stop interval=0 timeout=60 "
        "op monitor interval=10 timeout=40\n"
        f"{''.join(map(primitive, units))}"
        "primitive web systemd:nginx op monitor interval=10\n"
        f"primitive address ocf:heartbeat:IPaddr2 params ip={pair.address.ip} "
        f"cidr_netmask={pair.address.network.prefixlen} op monitor interval=10\n"
        f"primitive sight ocf:pacemaker:ping params host_list={pair.vote.address} multiplier=1000 dampen=30 "
        "op start interval=0 timeout=60 op monitor interval=10 timeout=60\n"
        "clone sights sight\n"
        f"group project {members}\n"
        "colocation project-with-disk inf: project disks:Promoted\n"
        "order disk-first Mandatory: disks:promote project:start\n"
        "location project-sees-clients project "
        f"rule {ANYWHERE}: defined #uname rule -{BLIND}: defined pingd and pingd eq 0\n"
    )


def timed(folder: Path) -> str:
    """Returns the settings for the service of each timer (systemd.unit(5))."""
    return (
        "# The cluster stops the timer, and so what it has started: then nothing uses the folder.\n"
        "# On a machine without the project the timer is silent.\n"
        "[Unit]\n"
        "PartOf=%p@%i.timer\n"
        f"ConditionPathExists={folder}/project.db\n"
    )


def files_of(pair: Pair, units: Iterable[Unit], folder: Path, secret: str) -> Iterator[tuple[str, str]]:
    """Yields the name and the text of each file."""
    yield "bsched.res", resource(pair, secret)
    yield "corosync.conf", corosync(pair)
    yield "sbd", watchdog(pair)
    yield "cluster.crm", cluster(pair, units, folder)
    yield "timed.conf", timed(folder)
