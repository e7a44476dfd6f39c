"""The disk from which the machines boot: Debian 12 with the packages of the pair and those that are tried."""
import shutil
from pathlib import Path

from bsched_pair.steps import PACKAGES
from debian_trial.debian import Root, TrialFault, run

SUITE = "bookworm"
INSIDE = Path(__file__).resolve().parent / "inside"
KERNELS = Path("/usr/lib/uml/modules")
MORE = (  # besides the packages of the pair
    *("systemd-sysv", "dbus", "udev", "dmsetup", "iproute2", "iputils-ping", "kmod", "procps", "psmisc"),
    *("openssh-server", "openssl", "e2fsprogs", "curl", "adduser", "bubblewrap", "corosync-qnetd"),
)
HOST = "sums.example"  # of the project's URL, in docs/SET_UP.md
IMAGE_BYTES = 3 << 30
MAKE_SECONDS = 5400  # on a machine that is busy with other things
# one key for root of all three machines and of the trial; the machines are reached by no one else
KEYS = """
install -d -m 700 /root/.ssh
ssh-keygen -q -t ed25519 -N '' -f /root/.ssh/id_ed25519
cp /root/.ssh/id_ed25519.pub /root/.ssh/authorized_keys
printf 'StrictHostKeyChecking no\\nUserKnownHostsFile /dev/null\\nLogLevel ERROR\\n' \
  > /etc/ssh/ssh_config.d/trial.conf
printf 'UseDNS no\\nMaxSessions 50\\nMaxStartups 50\\n' > /etc/ssh/sshd_config.d/trial.conf
printf '%s\\n' '127.0.0.1 localhost' '10.77.0.1 alpha' '10.77.0.2 beta' '10.77.0.3 gamma' '10.77.0.100 HOST' \
  > /etc/hosts
"""
CERTIFICATE = """
install -d -m 700 /etc/letsencrypt/live/HOST
openssl req -x509 -newkey ec -pkeyopt ec_paramgen_curve:prime256v1 -nodes -days 3650 -subj /CN=HOST \
  -addext subjectAltName=DNS:HOST -keyout /etc/letsencrypt/live/HOST/privkey.pem \
  -out /etc/letsencrypt/live/HOST/fullchain.pem
"""
UNITS = """
systemctl enable me.service observe.service
systemctl mask systemd-timesyncd.service systemd-networkd-wait-online.service getty@tty1.service \
  serial-getty@.service apt-daily.timer apt-daily-upgrade.timer e2scrub_all.timer fstrim.timer \
  dpkg-db-backup.timer
install -d /var/log/journal /etc/systemd/system.conf.d
printf '[Manager]\\nDefaultTimeoutStartSec=900s\\nDefaultTimeoutStopSec=300s\\n' \
  > /etc/systemd/system.conf.d/trial.conf
echo '/dev/ubda / ext4 rw,noatime 0 0' > /etc/fstab
rm -f /etc/resolv.conf /usr/sbin/policy-rc.d
"""


def make_base(work: Path, mirror: str) -> Path:
    """Makes a Debian 12 with all packages but those that are tried, once, and returns its archive."""
    base = work / "base.tar"
    if base.exists():
        return base
    names = [*MORE, *(name for name in PACKAGES if not name.startswith("bsched"))]
    made = work / "base.new.tar"
    run(
        ["mmdebstrap", "--quiet", "--variant=apt", f"--include={','.join(names)}", SUITE, str(made), mirror],
        MAKE_SECONDS,
    )
    return made.rename(base)


def kernel_modules() -> Path:
    """Returns the folder with the modules of Debian's kernel for User Mode Linux."""
    found = sorted(KERNELS.iterdir()) if KERNELS.is_dir() else []
    if len(found) != 1:
        raise TrialFault(f"{KERNELS} has no modules of one kernel: apt install user-mode-linux")
    return found[0]


def lay_inside(root: Path) -> None:
    """Lays the scripts, the units and the modules of the kernel into a Debian."""
    for name in ("me", "observe"):
        shutil.copy(INSIDE / name, root / "usr/local/sbin" / name)
        (root / "usr/local/sbin" / name).chmod(0o755)
        shutil.copy(INSIDE / f"{name}.service", root / "etc/systemd/system")
    modules = kernel_modules()
    shutil.copytree(modules, root / "lib/modules" / modules.name, dirs_exist_ok=True, symlinks=True)


def install(root: Root, out: Path) -> None:
    """Installs the packages that are tried. Units start at a boot, and not now."""
    policy = root.path / "usr/sbin/policy-rc.d"
    policy.write_text("#!/bin/sh\nexit 101\n")
    policy.chmod(0o755)
    shutil.copy("/etc/resolv.conf", root.path / "etc/resolv.conf")
    packages = root.path / "root/packages"
    packages.mkdir()
    for package in sorted(out.glob("bsched*.deb")):
        shutil.copy(package, packages)
    root.run("apt-get update", MAKE_SECONDS)
    root.run(
        "apt-get install --yes --no-install-recommends /root/packages/*.deb && apt-get clean", MAKE_SECONDS
    )


def make_image(work: Path, out: Path, mirror: str) -> Path:
    """Makes the image of the packages in OUT, unless the folder of the trial has one, and returns it. Each
    machine writes into a file of its own, so that the image stays as it is.
    """
    image = work / "base.img"
    if image.exists():
        return image
    base = make_base(work, mirror)
    root = Root(work / "root")
    shutil.rmtree(root.path, ignore_errors=True)
    root.path.mkdir()
    run(["tar", "--extract", "--file", str(base), "--directory", str(root.path)], MAKE_SECONDS)
    install(root, out)
    lay_inside(root.path)
    for script in (KEYS, CERTIFICATE, UNITS, f"depmod {kernel_modules().name}"):
        root.run(script.replace("HOST", HOST), 300)
    shutil.copy(root.path / "root/.ssh/id_ed25519", work / "key")
    (work / "key").chmod(0o600)
    shutil.copy(root.path / f"etc/letsencrypt/live/{HOST}/fullchain.pem", work / "certificate")
    made = work / "base.new.img"
    made.unlink(missing_ok=True)
    with made.open("wb") as file:
        file.truncate(IMAGE_BYTES)
    run(["mke2fs", "-q", "-t", "ext4", "-d", str(root.path), str(made)], MAKE_SECONDS)
    shutil.rmtree(root.path)
    return made.rename(image)
