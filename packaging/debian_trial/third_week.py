"""A third week: the operator edits the catalogue, adds a digest program, and lets mail tell what is wrong."""
import shlex
from collections.abc import Callable

from .debian import Done, Machine, TrialFault
from .second_week import FOLDER, PORT, PROJECT, WORK, SecondWeek
from .units import wait_until

BRIDGE, SCHEDULER = f"bsched-bridge@{PROJECT}", f"bsched@{PROJECT}"
HEALTH, COPY = f"bsched-health@{PROJECT}", f"bsched-copy@{PROJECT}"
CATALOGUE, UNITS_FILE = f"{FOLDER}/bridge/catalogue.toml", f"{FOLDER}/units.toml"
COPIES = f"/var/backups/bsched/{PROJECT}"
CHECK_SECONDS = 120  # for the check of a digest program and what follows from it
GOOD, WARNING, CRITICAL = 0, 1, 2  # statuses of health
CAN_NOT_RUN = "bubblewrap can't run here"
PROGRAM = '#!/bin/sh\nexec sort "$1"\n'
FAULTY = "#!/bin/sh\nexit 7\n"
NO_NAMESPACES = "[Service]\nRestrictNamespaces=yes\n"
MAILER = f"#!/bin/sh\ncat >> {FOLDER}/units/mailed\n"
HANGING = "#!/bin/sh\nexec sleep 600\n"
SENDMAIL, BWRAP = "/usr/sbin/sendmail", "/usr/bin/bwrap"


class ThirdWeek:
    """What the operator does, and what must be seen of it."""

    def __init__(self, machine: Machine, seen: Callable[[str], None], second: SecondWeek) -> None:
        self.machine, self.seen, self.second = machine, seen, second

    def run(self) -> None:
        """Does all steps."""
        self.advice_about_copies()
        self.statuses()
        self.mailers()
        self.full_disk()
        self.digest_programs()

    # ---- What the steps share

    def write(self, path: str, text: str) -> None:
        """Writes a file in the machine."""
        self.machine.run(f"printf %s {shlex.quote(text)} > {path}")

    def write_program(self, path: str, text: str) -> None:
        """Writes a program. It is a new file, so no process has it open."""
        self.machine.run(f"printf %s {shlex.quote(text)} > {path}.new && chmod 755 {path}.new")
        self.machine.run(f"mv {path}.new {path}")

    def health(self) -> Done:
        """Runs the command."""
        return self.machine.finished(f"bsched-tools health --project {PROJECT}", 120)

    def wants_health(self, status: int, *lines: str) -> str:
        """Runs `health`, which must end with a status and print lines with these words. Returns the first of
        them."""
        done = self.health()
        found = [
            next(
                (line for line in done.stdout.splitlines() if all(word in line for word in text.split("|"))),
                "",
            )
            for text in lines
        ]
        if done.returncode != status or not all(found):
            wanted = f"status {status} and {lines}"
            raise TrialFault(f"third week: health ends with {done.returncode}, not {wanted}:\n{done.stdout}")
        return found[0] if found else ""

    def wants_unit(self, is_failed: bool) -> None:
        """Starts the unit of health. It must fail if a finding is critical, and only then."""
        self.machine.finished(f"systemctl start {HEALTH}.service", 240)
        state = self.machine.finished(f"systemctl is-failed {HEALTH}.service").stdout.strip()
        if (state == "failed") != is_failed:
            journal = self.machine.run(f"journalctl --no-pager --output=cat --unit={HEALTH}.service -n 30")
            raise TrialFault(f"third week: {HEALTH} is {state}\n{journal}")

    def set_mail(self, address: str) -> None:
        """Says in units.toml who gets mail."""
        self.machine.run(f"sed -i 's/^#* *mail = .*/mail = \"{address}\"/' {UNITS_FILE}")
        if f'mail = "{address}"' not in self.machine.run(f"cat {UNITS_FILE}"):
            raise TrialFault(f"third week: {UNITS_FILE} has no line for mail")

    # ---- Health

    def advice_about_copies(self) -> None:
        """With the timer enabled and no copy, health names a command that makes one, and it does."""
        self.machine.run(f"systemctl enable --now {COPY}.timer && mv {COPIES} {COPIES}.aside")
        line = self.wants_health(CRITICAL, "critical  copy|there is none")
        advice = f"systemctl start {COPY}"
        if f"`{advice}` makes one now" not in line:
            raise TrialFault(f"third week: the advice is {line!r}")
        self.machine.run(advice, 120)
        self.wants_health(WARNING, "good      copy")
        self.seen(f"third week: {line.split(':')[-1].strip()}, and it does")

    def statuses(self) -> None:
        """Two bad computers are a warning, a scheduler that is stopped is critical. With mail and no mailer
        the statuses are no smaller."""
        self.wants_health(WARNING, "warning   computers", "good      catalogue", "good      uploads")
        self.wants_unit(False)
        self.machine.run(f"systemctl stop {SCHEDULER}")
        self.wants_health(CRITICAL, "critical  scheduler")
        self.wants_unit(True)
        self.set_mail("root@localhost")
        if self.machine.finished(f"test -e {SENDMAIL}").returncode == 0:
            raise TrialFault(f"third week: there is a mailer at {SENDMAIL}")
        for _ in range(3):
            self.wants_health(CRITICAL, "critical  scheduler", f"critical  mail|{SENDMAIL}")
            self.wants_unit(True)
        self.machine.run(f"systemctl start {SCHEDULER}")
        self.seen(
            "third week: a critical finding ends health with 2, and its unit fails: with no mailer, too"
        )

    def mailers(self) -> None:
        """A mailer that hangs is a critical finding. One that works gets one mail about a change."""
        self.machine.run(f"rm -f {FOLDER}/units/health.json")
        self.write_program(SENDMAIL, HANGING)
        self.wants_health(CRITICAL, "critical  mail|20 seconds")
        self.machine.run(f"rm -f {FOLDER}/units/health.json")
        self.write_program(SENDMAIL, MAILER)
        for _ in range(3):
            self.wants_health(WARNING, "warning   computers")
            self.wants_unit(False)
        count = self.machine.run(f"grep -c '^Subject: ' {FOLDER}/units/mailed").strip()
        if count != "1":
            raise TrialFault(f"third week: {count} mails came")
        self.seen("third week: a mailer that hangs is critical; one that works gets one mail about a change")

    def full_disk(self) -> None:
        """A full disk below units/ hides no level."""
        units = f"{FOLDER}/units"
        self.machine.run(
            f"mount -t tmpfs -o size=16k,mode=700 full {units} && "
            f"chown bsched: {units} && (head -c 100k /dev/zero > {units}/filler || true)"
        )
        try:
            self.wants_health(CRITICAL, "warning   computers", "critical  mail|No space left")
            self.wants_unit(True)
            self.set_mail("")
            self.wants_health(WARNING, "warning   computers", "the bridge's board does not show this")
            self.wants_unit(False)
            self.machine.run(f"systemctl stop {SCHEDULER}")
            self.wants_health(CRITICAL, "critical  scheduler")
            self.wants_unit(True)
        finally:
            self.machine.run(f"systemctl start {SCHEDULER}; umount {units}")
        self.machine.run(f"rm -f {SENDMAIL}")
        self.wants_health(WARNING, "warning   computers")
        self.wants_unit(False)
        self.seen("third week: with a full disk health ends with its worst finding, with mail and without")

    # ---- Digest programs under the unit

    def digest_programs(self) -> None:
        """A digest program runs in the unit's own confinement. A faulty one keeps the former catalogue, and
        at a start it keeps only its own application waiting."""
        self.add_application()
        self.edited_program()
        self.started_with_fault()
        self.without_namespaces()
        self.reports()

    def add_application(self) -> None:
        """Adds an application with a digest program, which the bridge takes without a restart."""
        self.write_program("/root/sort.sh", "#!/bin/sh\nsort in > out\necho 0 > boinc_finish_called\n")
        self.machine.run(
            f"cd {FOLDER}/bridge && bsched-tools app lines --project {PROJECT} --program /root/sort.sh "
            "--output out:10k --key code_sign_private && mkdir -p digests/example && "
            "printf '2\\n1\\n' > digests/example/out && chown -R bsched: digests",
            120,
        )
        self.write_program(f"{FOLDER}/bridge/digests/sorted", PROGRAM)
        members = 'digest = "digests/sorted"\\ndigest_example = "digests/example"'
        self.machine.run(f"sed -i 's|^name = \"lines\"$|&\\n{members}|' {CATALOGUE}")
        self.wait_for_catalogue("good      catalogue|its last edit counts", WARNING)
        self.wait_for_journal("the catalogue was read again: 2 applications")
        self.seen("third week: an application with a digest program counts without a restart")

    def edited_program(self) -> None:
        """A program that fails on its example keeps the former catalogue, and everybody says why."""
        self.write_program(f"{FOLDER}/bridge/digests/sorted", FAULTY)
        wanted = "critical  catalogue|it stays as it was|digests/sorted|its status is 7|journalctl -u"
        line = self.wait_for_catalogue(wanted, CRITICAL)
        self.wait_for_journal("the catalogue stays as it was: ", "its status is 7")
        self.wants_board("it stays as it was", "its status is 7")
        self.seen(f"third week: {line}")

    def started_with_fault(self) -> None:
        """The bridge starts with a faulty program, and serves the other application."""
        self.machine.run(f"systemctl restart {BRIDGE}", 240)
        line = self.wait_for_catalogue(
            "critical  catalogue|digest program of lines fails|its status is 7", CRITICAL
        )
        self.wait_for_journal("reports of lines wait for its digest program", "its status is 7")
        self.wants_board("digest program of lines", "its reports wait")
        self.machine.run(f"curl -sf http://127.0.0.1:{PORT + 1}/get_project_config.php")
        self.seen(f"third week: {line}")

    def without_namespaces(self) -> None:
        """If the unit forbids what bubblewrap needs, that is the reason that is given, at a start and after
        an edit. By hand the same check is good."""
        drop_in = f"/etc/systemd/system/{BRIDGE}.service.d"
        self.write_program(f"{FOLDER}/bridge/digests/sorted", PROGRAM)
        self.machine.run(f"mkdir -p {drop_in}")
        self.write(f"{drop_in}/override.conf", NO_NAMESPACES)
        self.machine.run(f"systemctl daemon-reload && systemctl restart {BRIDGE}", 240)
        line = self.wait_for_catalogue(f"critical  catalogue|digest program of lines|{CAN_NOT_RUN}", CRITICAL)
        by_hand = f"cd {FOLDER}/bridge && runuser -u bsched -- bsched-bridge --config bridge.toml --check"
        if "its example, twice" not in self.machine.run(by_hand, 120):
            raise TrialFault("third week: by hand the check of the digest program is not good")
        self.machine.run(f"echo '# edited' >> {FOLDER}/bridge/digests/sorted")
        self.wait_for_catalogue(f"critical  catalogue|it stays as it was|{CAN_NOT_RUN}", CRITICAL)
        self.machine.run(f"rm -r {drop_in} && systemctl daemon-reload && systemctl restart {BRIDGE}", 240)
        self.wait_for_catalogue("good      catalogue|its last edit counts", WARNING)
        self.seen(f"third week: {line}")
        self.seen("third week: without the drop-in all is good again")

    def reports(self) -> None:
        """Without bubblewrap reports wait, and health says why. With it they are compared by what the digest
        program prints.
        """
        self.write(f"{WORK}/letters", "b\na\n")
        submit = (
            f"bsched-tools submit --project {PROJECT} --app lines --batch sorted --hours 0.003 --quorum 2"
        )
        self.machine.run(f"mv {BWRAP} {BWRAP}.aside && cd {WORK} && {submit} letters", 120)
        clients = ("Ann", "Bob")
        for name in clients:
            self.second.resume_client(name)
        wanted = "warning   reports|put off|digest programs need Debian's bubblewrap: install it"
        self.second.wait_until("reports are put off", lambda: self.is_in_health(wanted), *clients)
        line = self.wants_health(WARNING, wanted)
        self.machine.run(f"mv {BWRAP}.aside {BWRAP}")
        self.second.wait_for("sorted", "done     1 of 1")
        self.second.stop_clients()
        self.machine.run(f"bsched-tools copy --project {PROJECT}", 120)
        job = self.machine.run(f"bsched-tools job --project {PROJECT} sorted_letters")
        if job.count(": valid") != 2:
            raise TrialFault(f"third week: the results with a digest are {job!r}")
        self.seen(f"third week: {line}")
        self.seen("third week: with bubblewrap both reports are compared by what the digest program prints")

    def is_in_health(self, text: str) -> bool:
        """Returns whether a line of health has these words."""
        return any(
            all(word in line for word in text.split("|")) for line in self.health().stdout.splitlines()
        )

    def wait_for_catalogue(self, line: str, status: int) -> str:
        """Waits until health has a line with these words, as the check of a program takes a moment."""
        return wait_until(lambda: self.wants_health(status, line), CHECK_SECONDS)

    def wait_for_journal(self, *texts: str) -> None:
        """Waits until a line of the bridge's journal has these words."""

        def look() -> str:
            journal = self.machine.run(f"journalctl --no-pager --output=cat --unit={BRIDGE}.service -n 200")
            for line in journal.splitlines():
                if all(text in line for text in texts):
                    return line
            raise TrialFault(
                f"third week: the journal of {BRIDGE} has no line with {texts}:\n{journal[-3000:]}"
            )

        wait_until(look, CHECK_SECONDS)

    def wants_board(self, *texts: str) -> None:
        """The operator's board must have these words."""
        key = f"$(/usr/libexec/bsched/operator-key {FOLDER}/settings.toml)"
        place = f"http://127.0.0.1:{PORT + 1}/operator/board"
        board = self.machine.run(f'curl -sf --data-urlencode "key={key}" {place}')
        for text in texts:
            if text not in board.replace("&#39;", "'"):
                raise TrialFault(f"third week: the board has no {text!r}")
