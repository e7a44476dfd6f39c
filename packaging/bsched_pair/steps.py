"""The commands that set up a pair, as `bsched-project pair` prints them."""
from collections.abc import Iterable
from pathlib import Path

from .pair import Pair
from .units import Unit

CLUSTER = ("corosync", "corosync-qdevice", "pacemaker")  # started by hand once; sbd starts with them
PACKAGES = (
    "bsched",
    "bsched-tools",
    "corosync",
    "corosync-qdevice",
    "crmsh",
    "drbd-utils",
    "nginx",
    "pacemaker",
    "pacemaker-resource-agents",
    "resource-agents",
    "sbd",
)
INSTALLED = {  # a file of the pair, and where it is installed
    "bsched.res": Path("/etc/drbd.d/bsched.res"),
    "corosync.conf": Path("/etc/corosync/corosync.conf"),
    "sbd": Path("/etc/default/sbd"),
}
KEY = Path("/etc/corosync/authkey")


def started_outside(units: Iterable[Unit]) -> list[str]:
    """Returns the units that nothing but the cluster may start."""
    return [*(unit.unit for unit in units), "nginx.service", "drbd.service"]


def steps(pair: Pair, units: Iterable[Unit], home: Path, written: Path) -> str:
    """Returns what to run where. Commands begin with two blanks."""
    assert pair.vote is not None  # a pair without it is refused
    units = list(units)
    one, other = pair.machines
    packages = " ".join(name for name in PACKAGES if not name.startswith("bsched"))
    timed = " ".join(unit.unit.removesuffix(".timer") for unit in units if unit.is_timer)
    before = f"/root/{pair.project}.before-the-pair"
    return f"""\
{written} has the files of the cluster. The project must be on {one.name}, and both
machines must have the packages bsched and bsched-tools. Stop nothing before step 4.

1. On {one.name} and {other.name}, and then on {pair.vote.name}:

  apt install {packages}
  apt install corosync-qnetd

2. On {one.name}: the machines get the same files and the same key.

  corosync-keygen
  scp -p {KEY} {other.name}:{KEY}
  ssh -n {other.name} mkdir -p {home} {written.parent}
  scp -rp {written} {other.name}:{written.parent}/
  corosync-qdevice-net-certutil -Q -n bsched-{pair.project} {pair.vote.address} {one.name} {other.name}

3. On both: Debian's packages have started a cluster of each machine alone. It ends, and the
files come into their places. Until the cluster runs, the disk must not ask it.

  systemctl disable --now pacemaker corosync && rm -f /var/lib/pacemaker/cib/*
  cd {written}
  sed s/resource-and-stonith/dont-care/ bsched.res | install -m 600 /dev/stdin {INSTALLED["bsched.res"]}
  install -m 644 corosync.conf {INSTALLED["corosync.conf"]}
  install -m 644 sbd {INSTALLED["sbd"]}
  for timed in {timed}; do
    install -D -m 644 timed.conf /etc/systemd/system/$timed.service.d/pair.conf
  done
  systemctl daemon-reload

4. On both: from now on the cluster alone starts the project. Volunteers wait until step 7.

  systemctl disable --now {" ".join(started_outside(units))}
  drbdadm create-md bsched && drbdadm up bsched

5. On {one.name}: both disks are empty, so nothing is copied between them. Then the project
moves onto the disk.

  drbdadm wait-connect bsched && drbdadm -- --clear-bitmap new-current-uuid bsched
  drbdadm primary bsched && mkfs.ext4 -m 0 /dev/drbd0
  mount /dev/drbd0 /mnt && cp -a {home}/. /mnt/ && umount /mnt
  mv {home} {before} && mkdir {home}
  drbdadm secondary bsched

6. On both: the cluster starts, and the disk asks it from now on.

  systemctl enable sbd {" ".join(CLUSTER)}
  systemctl start {" ".join(CLUSTER)}
  install -m 600 {written}/bsched.res {INSTALLED["bsched.res"]} && drbdadm adjust bsched

7. On {one.name}: the project starts. Within two minutes it is on one of the machines.

  crm configure load update {written}/cluster.crm
  crm_mon -1

8. On {one.name}: what is missing, and where the machines differ, in a line each.

  ssh {other.name} bsched-project pair --state {pair.project} | bsched-project pair --check {pair.project} -

Lead the name of the URL to {pair.address.ip}. Once the project has run from the disk for a day,
remove {before} on {one.name}: it is the project as it was before step 5.
"""
