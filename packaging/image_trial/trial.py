"""The steps of the trial: an image is built, run, stopped, killed and replaced, and a client works."""
import shutil
import sqlite3
import time
from collections.abc import Callable
from contextlib import closing
from pathlib import Path

import plain_tables
from debian_trial.debian import TrialFault
from debian_trial.units import wait_until
from served import free_port
from trial.programs import Client

from .containers import NAME, Podman
from .page import Page

PROJECT, URL = "hundred", "http://127.0.0.1:9001/"
FOLDER = f"/var/lib/bsched/{PROJECT}"
READY_SECONDS = 900
WORK_SECONDS = 1800
USER = 640  # of the volume's files, which the Containerfile names
JOBS = 10
SUMS = [sum(number**2 for number in range(first, 1001)) for first in range(1, 101)]


def wants(is_so: object, what: str) -> None:
    """Ends the trial if something is not so."""
    if not is_so:
        raise TrialFault(what)


class Trial:
    """The steps over one volume."""

    def __init__(self, podman: Podman, page: Page, work: Path, seen: Callable[[str], None]):
        self.podman, self.page, self.work, self.seen = podman, page, work, seen
        self.tables = work / "tables"
        self.client = Client("client", "", URL, work, free_port())

    def run(self) -> None:
        """Does all steps."""
        try:
            self.begin()
            self.give_work()
            self.join()
            self.collect()
            self.stop_and_start()
            self.kill_and_start()
            self.replace()
        finally:
            self.client.kill()

    def follow(self, number: int) -> None:
        """Runs the commands of a step of the page."""
        self.page.run(number, self.podman.shell, self.podman.in_container)

    def begin(self) -> None:
        """Builds the image, and runs it."""
        began = time.monotonic()
        self.follow(1)
        size = int(self.podman.run("image", "inspect", "--format", "{{.Size}}", NAME))
        self.seen(f"build: the image has {size // 10**6} MB, after {time.monotonic() - began:.0f} seconds")
        began = time.monotonic()
        self.follow(2)
        self.wait_until_up()
        self.seen(f"run: the project `{PROJECT}` serves, after {time.monotonic() - began:.0f} seconds")
        self.podman.inside("! systemctl --failed --quiet --plain --no-legend | grep .")
        self.podman.inside(f"systemctl start bsched-copy@{PROJECT}", 900)
        self.seen("run: no unit has failed, and the unit of copies made one")

    def wait_until_up(self) -> None:
        """Waits until this computer gets the page of the project, and its clients get answers."""

        def look() -> None:
            done = self.podman.shell(f"curl -sf --max-time 20 {URL} | grep -F '<title>{PROJECT}</title>'", 60)
            wants(done.returncode == 0, f"{URL} does not answer after {READY_SECONDS} seconds")
            units = f"bsched@{PROJECT} bsched-bridge@{PROJECT} bsched-tick@{PROJECT}.timer"
            done = self.podman.in_container(f"systemctl is-active {units}")
            wants(done.returncode == 0, f"{units} are {done.stdout.split()}")

        wait_until(look, READY_SECONDS)

    def give_work(self) -> None:
        """Makes the hundred jobs."""
        self.follow(3)
        self.seen("work: a program is signed and added, and a hundred jobs are made")

    def join(self) -> None:
        """Lets a client of this computer join, from outside of the container."""
        self.client.start()
        key = self.client.create_account("ann@sums.example", "a-password", "Ann")
        wants(key, f"the client gets no account: {self.client.output}")
        self.client.authenticator = key or ""
        self.client.attach()
        self.seen("client: BOINC's client on this computer has an account, and attached")

    def wait_for(self, batch: str, jobs: int) -> None:
        """Waits until the client has done a batch."""

        def look() -> None:
            self.client.update()
            said = self.podman.inside(f"bsched-tools progress --project {PROJECT} --batch {batch}")
            wants(f"\ndone     {jobs} of {jobs}\n" in said, f"after {WORK_SECONDS} seconds:\n{said}")

        wait_until(look, WORK_SECONDS)

    def collect(self) -> None:
        """Collects the outputs, once the client has done its jobs."""
        began = time.monotonic()
        self.wait_for("first", 100)
        self.follow(5)
        outputs = sorted((self.work / "outputs").glob("first_part_*/out"))
        wants([int(path.read_text()) for path in outputs] == SUMS, "the outputs are not the sums of squares")
        took = time.monotonic() - began
        self.seen(f"client: it did the hundred jobs in {took:.0f} seconds, and all outputs are right")

    def state(self) -> dict[str, str]:
        """Returns what must outlive a stop: results with their credit, accounts, units, keys, and files of
        root."""
        self.podman.inside(f"bsched-tools copy --project {PROJECT}", 900)
        asked = {
            "results": f"bsched-tools results --project {PROJECT}",
            "accounts": f"bsched-bridge members --project {PROJECT}",
            "units": "find /etc/systemd/system/*.wants -name 'bsched*' | sort",
            "root": "cd /root && find -L . -type f -exec sha256sum {} + | sort -k 2",
            "keys": f"cd {FOLDER}/bridge && sha256sum code_sign_p* bridge.toml catalogue.toml",
        }
        return {name: self.podman.inside(command) for name, command in asked.items()}

    def copies(self) -> set[str]:
        """Returns the names of the copies."""
        return set(self.podman.inside(f"ls /var/backups/bsched/{PROJECT}").split())

    def must_be(self, before: dict[str, str], copies: set[str], what: str) -> None:
        """Compares what there is now with what there was."""
        after = self.state()
        for name, text in before.items():
            wants(after[name] == text, f"{what}: the {name} are\n{after[name]}\nand were\n{text}")
        wants(copies <= self.copies(), f"{what}: copies are missing: {copies - self.copies()}")

    def do_more(self, batch: str) -> None:
        """Has the client do some more jobs."""
        self.podman.inside(
            f"cd /root && mkdir {batch} && cp inputs/part_00* inputs/part_010 {batch} && "
            f"bsched-tools submit --project {PROJECT} --app squares --batch {batch} {batch}"
            " --hours 0.003 --quorum 1",
            900,
        )
        self.wait_for(batch, JOBS)

    def stop_and_start(self) -> None:
        """Stops the container and starts it, as the page says."""
        before, copies = self.state(), self.copies()
        self.follow(6)
        self.wait_until_up()
        self.must_be(before, copies, "after a stop")
        rows = len(before["results"].splitlines()) - 1
        self.seen(
            f"stop: started again; {rows} results, accounts, {len(copies)} copies and units are as before"
        )
        self.do_more("second")
        self.seen(f"stop: the client did {JOBS} more jobs")

    def kill_and_start(self) -> None:
        """Kills the container while the client works, and starts it."""
        before, copies = self.state(), self.copies()
        self.podman.run("kill", NAME)
        self.podman.run("start", NAME)
        self.wait_until_up()
        self.must_be(before, copies, "after a kill")
        self.do_more("third")
        self.seen(f"kill: killed and started; nothing is lost, and the client did {JOBS} more jobs")

    def replace(self) -> None:
        """Puts a new image in the place of the old one, over tables of the first schema."""
        before, copies = self.state(), self.copies()
        old = self.podman.run("image", "inspect", "--format", "{{.Id}}", NAME)
        other = self.work / "OUT" / "machine" / "usr" / "local" / "share" / "another-image"
        other.parent.mkdir(parents=True, exist_ok=True)
        other.write_text("")
        self.follow(1)
        new = self.podman.run("image", "inspect", "--format", "{{.Id}}", NAME)
        wants(new != old, "the second image is the first one")
        self.podman.run("stop", NAME)
        self.lay_former_tables()
        self.follow(7)
        self.wait_until_up()
        used = self.podman.run("inspect", "--format", "{{.Image}}", NAME)
        wants(used == new, "the container does not run the new image")
        self.check_upgrade()
        self.must_be(before, copies, "with a new image")
        self.seen("new image: it upgraded tables of schema 1, kept a copy of them, and nothing is lost")
        self.do_more("fourth")
        self.seen(f"new image: the client did {JOBS} more jobs")

    def lay_former_tables(self) -> None:
        """Puts the same rows into tables of the first schema, while the container is stopped."""
        folder = self.podman.volume() / PROJECT
        newest, former = self.tables / "newest.db", self.tables / "former.db"
        for path in folder.glob("project.db*"):
            shutil.move(path, self.tables / path.name.replace("project", "newest"))
        plain_tables.make_former(former, str(newest))
        wants(schema_of(former) == 1, "the former tables have another schema")
        shutil.move(former, folder / "project.db")
        shutil.chown(folder / "project.db", USER, USER)
        (folder / "project.db").chmod(0o600)

    def check_upgrade(self) -> None:
        """Checks that the tables were upgraded, and that the folder before-upgrade has the former ones."""
        said = self.podman.inside(f"journalctl --no-pager --output=cat --unit=bsched@{PROJECT}")
        wants("schema 3" in said.splitlines(), f"the upgrade says {said[-3000:]!r}")
        kept = self.tables / "kept"
        shutil.copytree(self.podman.volume() / PROJECT / "before-upgrade", kept)
        wants(schema_of(kept / "project.db") == 1, "before-upgrade has no tables of schema 1")
        wants((kept / "bridge.db").exists(), "before-upgrade has no state of the bridge")


def schema_of(path: Path) -> int:
    """Returns the schema of tables."""
    with closing(sqlite3.connect(path)) as connection:
        ((number,),) = connection.execute("SELECT value FROM setting WHERE name = 'schema'").fetchall()
    return int(number)
