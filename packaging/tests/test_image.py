"""Tests the scripts of the image, its page, and how a trial runs the commands of the page."""
import os
import re
import subprocess
from pathlib import Path

import pytest
from debian_trial.path import steps_of
from image_trial.containers import Options, Podman
from image_trial.page import IN_CONTAINER
from project_machine import TOP

IMAGE = TOP / "packaging" / "image"
MACHINE = IMAGE / "machine"
SCRIPTS = MACHINE / "usr" / "local" / "libexec" / "bsched-image"
UNITS = MACHINE / "usr" / "local" / "lib" / "systemd" / "system"
PAGE, HUNDRED = TOP / "docs" / "IMAGE.md", TOP / "docs" / "FIRST_HUNDRED_JOBS.md"
# stands for bsched: it says so, and ends as the test wants
PROGRAM = '#!/bin/sh\necho "$@" >> called\nexit "$(cat status)"\n'


class Project:
    """The folder of a project, and an image that serves it."""

    def __init__(self, folder: Path):
        self.folder, self.image = folder / "sums", folder / "built"
        (self.folder / "bridge").mkdir(parents=True)
        (self.folder / "project.db").write_text("rows 1")
        (self.folder / "project.db-wal").write_text("log 1")
        (self.folder / "bridge" / "bridge.db").write_text("state 1")
        program = folder / "bin" / "bsched"
        program.parent.mkdir()
        program.write_text(PROGRAM)
        program.chmod(0o755)
        self.path = f"{program.parent}:{os.environ['PATH']}"
        text = (SCRIPTS / "upgrade").read_text()
        assert text.count("/usr/local/libexec/bsched-image/built") == 1
        self.script = text.replace("/usr/local/libexec/bsched-image/built", str(self.image))

    def upgrade(self, image: str, status: int = 0) -> int:
        """Runs the script of an image over a program that ends with a status. Returns that of the script."""
        self.image.write_text(f"{image}\n")
        (self.folder / "status").write_text(str(status))
        words = ["sh", "-c", self.script]
        return subprocess.run(words, cwd=self.folder, env={"PATH": self.path}, timeout=600).returncode

    def calls(self) -> int:
        """Returns how often the program was called."""
        called = self.folder / "called"
        return called.read_text().count("upgrade --tables project.db\n") if called.exists() else 0

    def copied(self) -> dict[str, str]:
        """Returns the files of the copy."""
        return {path.name: path.read_text() for path in (self.folder / "before-upgrade").iterdir()}


@pytest.fixture
def project(tmp_path: Path) -> Project:
    """Makes a project that no image has served."""
    return Project(tmp_path)


FIRST_COPY = {"project.db": "rows 1", "project.db-wal": "log 1", "bridge.db": "state 1", "image": "one\n"}


def test_an_image_copies_and_upgrades_once(project: Project) -> None:
    assert project.upgrade("one") == 0
    assert project.copied() == FIRST_COPY
    (project.folder / "project.db").write_text("rows 2")
    assert project.upgrade("one") == 0
    assert project.calls() == 1 and project.copied() == FIRST_COPY


def test_the_next_image_copies_anew(project: Project) -> None:
    project.upgrade("one")
    (project.folder / "project.db").write_text("rows 2")
    (project.folder / "project.db-wal").unlink()
    assert project.upgrade("two") == 0
    assert project.calls() == 2
    assert project.copied() == {"project.db": "rows 2", "bridge.db": "state 1", "image": "two\n"}


def test_a_second_try_keeps_the_copy(project: Project) -> None:
    """The first one may have ended half way, so the tables are no copy of what was before."""
    assert project.upgrade("one", status=2) != 0
    (project.folder / "project.db").write_text("half of it")
    assert project.upgrade("one", status=1) != 0
    assert project.upgrade("one") == 0
    assert project.calls() == 3 and project.copied() == FIRST_COPY


def test_a_copy_that_was_stopped_is_made_anew(project: Project) -> None:
    half = project.folder / "before-upgrade.new"
    half.mkdir()
    (half / "project.db").write_text("half")
    (half / "other").write_text("")
    assert project.upgrade("one") == 0
    assert project.copied() == FIRST_COPY and not half.exists()


def first_process(folder: Path) -> str:
    """Returns the script of the first process, for a volume and an image in a folder."""
    text = (MACHINE / "usr" / "local" / "sbin" / "init").read_text()
    for name, place in (
        ("/usr/local/libexec/bsched-image/first", folder / "image" / "first"),
        ("/var/lib/bsched", folder / "volume"),
        ("exec /usr/lib/systemd/systemd", "echo continues"),
        ("chown root:bsched", ":"),
    ):
        assert name in text
        text = text.replace(name, str(place))
    return text


def test_a_new_volume_gets_each_folder_once(tmp_path: Path) -> None:
    first, kept = tmp_path / "image" / "first", tmp_path / "volume" / ".machine"
    kept.parent.mkdir()
    for name in ("etc/nginx", "root"):
        (first / name).mkdir(parents=True)
        (first / name / "file").write_text("of the image")
    (tmp_path / "image" / "folders").write_text("/etc/nginx\n/root\n")
    (kept / ".new").mkdir(parents=True)  # a first start was stopped
    for text in ("of the image", "of the operator"):
        words = ["sh", "-c", first_process(tmp_path)]
        assert subprocess.run(words, capture_output=True, text=True, timeout=600).stdout == "continues\n"
        assert (kept / "root" / "file").read_text() == text
        assert (kept / "etc" / "nginx" / "file").read_text() == "of the image" and not (
            kept / ".new"
        ).exists()
        (kept / "root" / "file").write_text("of the operator")


def test_the_first_project_is_that_of_the_hundred_jobs() -> None:
    (block,) = (block for step in steps_of(HUNDRED) if step.number == 2 for block in step.blocks)
    script = (SCRIPTS / "first-project").read_text()
    assert block.commands.strip() in script.replace("\\\n  ", "")
    (start,) = (line for line in script.splitlines() if line.startswith("systemctl"))
    assert start in HUNDRED.read_text().splitlines()


def test_the_page_the_image_and_the_door_have_the_same_ports() -> None:
    text = (IMAGE / "Containerfile").read_text()
    assert "\nEXPOSE 8000 80 443\n" in text and "\nVOLUME /var/lib/bsched\n" in text
    assert "ListenStream=8000\n" in (UNITS / "bsched-door.socket").read_text()
    assert "127.0.0.1:9001\n" in (UNITS / "bsched-door.service").read_text()
    assert PAGE.read_text().count("--publish 127.0.0.1:9001:8000") == 2


def test_the_container_takes_back_what_the_units_have() -> None:
    """systemd refuses a unit with these keys in a container. Each of them is in some unit."""
    lines = (UNITS / "service.d" / "container.conf").read_text().splitlines()
    keys = [line.partition("=")[0] for line in lines if "=" in line]
    assert keys == ["BindPaths", "BindReadOnlyPaths", "TemporaryFileSystem", "PrivateUsers"]
    units = "".join(path.read_text() for path in (TOP / "debian").glob("*.service"))
    assert all(f"\n{key}=" in units for key in keys)
    used = set(re.findall(r"^(\w+)=", units, re.MULTILINE))
    assert used & {"RootDirectory", "RootImage", "MountImages", "ExtensionImages", "DynamicUser"} == set()


def test_the_page_has_seven_steps_and_each_block_is_a_script() -> None:
    steps = steps_of(PAGE)
    assert [step.number for step in steps] == list(range(1, 8))
    blocks = [block for step in steps for block in step.blocks]
    for block in blocks:
        completed = subprocess.run(["bash", "-n"], input=block.commands, text=True, capture_output=True)
        assert (completed.returncode, completed.stderr) == (0, "")
    inside = [block for block in blocks if IN_CONTAINER in block.note]
    assert [block.commands.startswith("cat > /root/squares.py") for block in inside] == [True]
    assert all(block.commands.startswith("podman ") for block in blocks if block not in inside)


def test_a_trial_adds_its_options_to_the_commands_of_the_page(tmp_path: Path) -> None:
    podman = Podman(tmp_path, Options("a base", "runc", "--ulimit 'nofile=2:2'"))
    wrapper = tmp_path / "bin" / "podman"
    wrapper.write_text(wrapper.read_text().replace("exec ", "printf '%s\\n' "))
    words = podman.shell("podman build --tag bsched OUT").stdout.splitlines()
    assert words[-6:] == ["build", "--network=host", "--build-arg=BASE=a base", "--tag", "bsched", "OUT"]
    words = podman.shell("podman run --name 'a b' bsched").stdout.splitlines()
    assert words[-6:] == ["run", "--ulimit", "nofile=2:2", "--name", "a b", "bsched"]
    words = podman.shell("podman stop bsched").stdout.splitlines()
    assert words[1:] == [
        f"--root={tmp_path / 'storage'}",
        f"--runroot={tmp_path / 'run'}",
        "--runtime=runc",
        "stop",
        "bsched",
    ]
