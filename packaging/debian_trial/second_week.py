"""A scientist's second week: minisat over small formulas, a bad input, a cheat and a broken computer."""
import re
import shlex
import time
from collections.abc import Callable
from pathlib import Path

from .debian import Machine, TrialFault
from .formulas import formulas

PROJECT, PORT = "solved", 9300
URL = f"http://127.0.0.1:{PORT + 1}/"
FOLDER = f"/var/lib/bsched/{PROJECT}"
WORK = "/root/second_week"
OUTPUTS = "/srv/solved"
OWNER, OWNER_NUMBER = "scientist", 4321
WAIT_SECONDS = 900
MINISAT = "/usr/bin/minisat"
SCRIPT = """\
#!/bin/sh
# Has minisat decide the formula in the file `in`. Its answer is in the file `out`.
# minisat ends with 10 if the formula can be satisfied, with 20 if it can't, and else with another status
# and a reason on standard error, which the client reports.
LD_LIBRARY_PATH=. ./minisat in out > log
case $? in 10 | 20) ;; *) exit 3 ;; esac
echo 0 > boinc_finish_called
"""
CHEAT = "#!/bin/sh\necho UNSAT > out\necho 0 > boinc_finish_called\n"
BROKEN = "#!/bin/sh\nexit 1\n"
BAD = "p cnf 3 1\n1 2 three 0\n"
NO_FORMULA = "PARSE ERROR"  # what minisat says about it
# the jobs of each batch: with the first one two clients get the program, and with the second one it is seen
# what they make of it once it is another
FIRST, SECOND = 2, 5
ALL, ONE_UNSATISFIABLE_IN = 50, 6
# a client with its own folder, port and account. The network is this machine's
CLIENTS = {"Eve": 31601, "Max": 31602, "Ann": 31603, "Bob": 31604}
OPTIONS = "--allow_multiple_clients --skip_cpu_benchmarks --no_gpus --gui_rpc_port"
PREFERENCES = "<global_preferences><suspend_cpu_usage>0</suspend_cpu_usage></global_preferences>"
EVES_JOBS = 30  # jobs of the third batch that the cheat does before others join
MOST_HELD_BACK = 2  # jobs that the broken computer gets later: one a day, of two days at midnight
NOTICE = "This computer reported tasks that failed."


class SecondWeek:
    """The project, its clients, and what must be seen of them."""

    def __init__(self, machine: Machine, seen: Callable[[str], None]) -> None:
        self.machine, self.seen = machine, seen
        made = formulas(ALL, ONE_UNSATISFIABLE_IN)
        self.inputs = {f"formula_{number:02}": formula for number, formula in enumerate(made)}

    def run(self) -> None:
        """Does all steps."""
        self.make_project()
        names = list(self.inputs)
        batches = {
            "first": names[:FIRST],
            "second": [*names[FIRST : FIRST + SECOND], "bad"],
            "third": names[FIRST + SECOND :],
        }
        self.submit("first", batches["first"])
        for name in ("Eve", "Max"):
            self.start_client(name)
        self.wait_for("first", "done     2 of 2")
        self.replace_program("Eve", CHEAT)
        self.replace_program("Max", BROKEN)
        self.seen("second week: two clients computed a first batch; now one cheats, and one is broken")
        self.submit("second", batches["second"])
        self.wait_until("all that Max got has failed", lambda: self.errors_of("Max") == SECOND + 1, "Max")
        self.submit("third", batches["third"])
        self.wait_until("Max is told why he gets few jobs", lambda: NOTICE in self.log_of("Max"), "Max")
        self.seen("second week: the broken computer's volunteer reads why it gets few jobs")
        done = "Finished upload of third_"
        self.wait_until("Eve has answers", lambda: self.log_of("Eve").count(done) >= EVES_JOBS, "Eve", "Max")
        for name in ("Ann", "Bob"):
            self.start_client(name)
        self.wait_for("second", f"done     {SECOND} of {SECOND + 1}")
        self.wait_for("third", f"done     {ALL - FIRST - SECOND} of {ALL - FIRST - SECOND}")
        self.check_outputs()
        self.check_bad_input()
        self.check_computers()
        self.check_spoiled_output()
        self.stop_clients()

    # ---- The project

    def make_project(self) -> None:
        """Makes a project with minisat and four accounts, and starts it."""
        self.machine.run(
            f"bsched-project --job-time 10s --processors 16 --port {PORT} --url {URL} {PROJECT}; "
            f"useradd --uid {OWNER_NUMBER} {OWNER}; install -d -o {OWNER} -g {OWNER} {OUTPUTS}; mkdir {WORK}"
        )
        self.write(f"{WORK}/solve.sh", SCRIPT)
        self.machine.run(f"chmod 755 {WORK}/solve.sh")
        rows = "".join(f"{name.lower()}-second-week,{name}\n" for name in CLIENTS)
        self.write(f"{WORK}/accounts.csv", f"authenticator,name\n{rows}")
        libraries = self.machine.run(f"ldd {MINISAT} | sed -n 's/.*=> \\(.*minisat[^ ]*\\) .*/\\1/p'").split()
        files = " ".join(f"--file {path}" for path in (MINISAT, *libraries))
        self.machine.run(
            f"cd {FOLDER}/bridge && bsched-bridge keygen && bsched-tools app sat --project {PROJECT} "
            f"--program {WORK}/solve.sh {files} --output out:10k --key code_sign_private && "
            f"bsched-tools import --project {PROJECT} {WORK}/accounts.csv && "
            f"systemctl enable --now bsched@{PROJECT} bsched-tick@{PROJECT}.timer bsched-bridge@{PROJECT}",
            240,
        )
        self.seen(f"second week: minisat and {len(libraries)} library of it are an application")

    def write(self, path: str, text: str) -> None:
        """Writes a file in the machine."""
        self.machine.run(f"printf %s {shlex.quote(text)} > {path}")

    def submit(self, batch: str, names: list[str]) -> None:
        """Makes work of some inputs, with the quorum 2."""
        for name in names:
            formula = self.inputs.get(name)
            self.write(f"{WORK}/{name}", BAD if formula is None else formula.text)
        self.machine.run(
            f"cd {WORK} && bsched-tools submit --project {PROJECT} --app sat --batch {batch} --hours 0.003 "
            f"--quorum 2 {' '.join(names)}",
            120,
        )

    # ---- Clients

    def start_client(self, name: str) -> None:
        """Starts a client of a user, which joins the project."""
        folder = f"{WORK}/{name}"
        self.machine.run(f"mkdir {folder}")
        self.write(f"{folder}/global_prefs_override.xml", PREFERENCES)
        options = f"{OPTIONS} {CLIENTS[name]} --attach_project {URL} {name.lower()}-second-week"
        self.run_client(name, options)

    def resume_client(self, name: str) -> None:
        """Starts a client again that was stopped."""
        self.run_client(name, f"{OPTIONS} {CLIENTS[name]}")

    def run_client(self, name: str, options: str) -> None:
        """Runs a client in its folder. What it logs is added to its log."""
        folder = f"{WORK}/{name}"
        begun = f"(cd {folder} && exec setsid boinc --dir {folder} {options})"
        self.machine.run(f"{begun} >> {folder}.log 2>&1 < /dev/null & sleep 1")

    def stop_clients(self) -> None:
        """Stops all clients."""
        for name in CLIENTS:
            self.machine.run(f"cd {WORK}/{name} && boinccmd --host 127.0.0.1:{CLIENTS[name]} --quit || true")

    def replace_program(self, name: str, text: str) -> None:
        """Writes another program in the place of the one that a client downloaded, with as many bytes."""
        find = f"find {WORK}/{name}/projects -name 'sat_1_*' -name '*.sh'"
        path = self.machine.run(find).strip()
        if not path or "\n" in path:
            raise TrialFault(f"{name} has the programs {path!r}")
        size = int(self.machine.run(f"stat -c %s {path}"))
        self.machine.run(f"chmod u+w {path}")
        self.write(path, f"{text}{'#' * (size - len(text) - 1)}\n")

    def log_of(self, name: str) -> str:
        """Returns what a client logged."""
        return self.machine.run(f"cat {WORK}/{name}.log")

    def update(self, *names: str) -> None:
        """Has clients call the bridge now."""
        for name in names:
            command = f"boinccmd --host 127.0.0.1:{CLIENTS[name]} --project {URL} update"
            self.machine.finished(f"cd {WORK}/{name} && {command}")

    def wait_until(self, what: str, is_so: Callable[[], bool], *names: str) -> None:
        """Waits until something is so, while clients call again and again."""
        until = time.monotonic() + WAIT_SECONDS
        while not is_so():
            if time.monotonic() > until:
                progress = self.machine.finished(f"bsched-tools progress --project {PROJECT}").stdout
                logs = "".join(f"{name}:\n{self.log_of(name)[-1500:]}\n" for name in names)
                raise TrialFault(f"second week: after {WAIT_SECONDS} s not so: {what}\n{progress}\n{logs}")
            self.update(*names)
            time.sleep(5)

    def progress(self, batch: str) -> str:
        """Returns what the tools print about a batch."""
        return self.machine.run(f"bsched-tools progress --project {PROJECT} --batch {batch}", 120)

    def wait_for(self, batch: str, line: str) -> None:
        """Waits until the progress of a batch has a line."""
        names = [name for name in CLIENTS if self.machine.finished(f"test -e {WORK}/{name}").returncode == 0]
        self.wait_until(f"{batch}: {line}", lambda: line in self.progress(batch), *names)
        self.seen(f"second week: batch {batch}: {line}")

    def errors_of(self, name: str) -> int:
        """Returns how many client errors of a user the progress of the second batch has."""
        for line in self.progress("second").splitlines():
            words = line.split()
            if words[:1] == ["errors"] and line.endswith(f" of {name}"):
                return int(words[2])
        return 0

    # ---- What must be seen

    def check_outputs(self) -> None:
        """Collects the outputs: they are right, and belong to the owner of the folder."""
        for batch in ("first", "second", "third"):
            self.machine.run(f"bsched-tools collect --project {PROJECT} --batch {batch} --to {OUTPUTS}", 120)
        listed = self.machine.run(f"find {OUTPUTS} -name out -printf '%u %m %p\\n'").splitlines()
        if len(listed) != ALL or any(not line.startswith(f"{OWNER} 644 ") for line in listed):
            raise TrialFault(f"second week: the outputs are {listed}")
        for path in (Path(line.split()[2]) for line in listed):
            formula = self.inputs[path.parent.name.partition("_")[2]]
            answer = self.machine.run(f"cat {path}")
            if not formula.is_answered(answer):
                raise TrialFault(f"second week: {path} has {answer!r}")
        change = f"echo more >> {OUTPUTS}/first_formula_00/out"
        self.machine.run(f"runuser -u {OWNER} -- sh -c {shlex.quote(change)}")
        stored = self.machine.run(f"grep -rlx more {FOLDER}/bridge/uploads || true")
        if stored.strip():
            raise TrialFault(f"second week: a change of an output changed {stored!r}")
        self.seen(
            f"second week: {ALL} right outputs, of {OWNER} and with mode 644; to change one changes no other"
        )

    def check_bad_input(self) -> None:
        """The bad input failed, or is stuck, and its reason is named."""
        tables = self.machine.run(f"cat {OUTPUTS}/failed.csv {OUTPUTS}/open.csv")
        rows = [line for line in tables.splitlines() if line.startswith("second_bad,")]
        if len(rows) != 1 or not ("too many errors" in rows[0] or ",stuck," in rows[0]):
            raise TrialFault(f"second week: the tables of collect have {tables!r}")
        self.machine.run(f"bsched-tools copy --project {PROJECT}", 120)
        job = self.machine.run(f"bsched-tools job --project {PROJECT} second_bad")
        progress = self.progress("second")
        for text in (job, progress):
            if NO_FORMULA not in text:
                raise TrialFault(f"second week: the bad input is shown as {text!r}")
        said = next(line.strip() for line in progress.splitlines() if NO_FORMULA in line)
        self.seen(f"second week: {rows[0]}; progress: {said}")

    def check_computers(self) -> None:
        """The cheat's results are invalid, and both bad computers are named."""
        results = self.machine.run(f"bsched-tools results --project {PROJECT}")
        verdicts = [line for line in results.splitlines() if ",Eve," in line]
        unlike = sum(formula.can_hold for formula in list(self.inputs.values())[FIRST:])
        invalid = sum(",invalid," in line for line in verdicts)
        if not 0 < invalid <= unlike or len(verdicts) - invalid > ALL - unlike:
            raise TrialFault(f"second week: Eve has {invalid} invalid of {len(verdicts)} results\n{results}")
        self.seen(f"second week: {invalid} of the {len(verdicts)} results of the cheat are invalid")
        health = self.machine.finished(f"bsched-tools health --project {PROJECT}").stdout
        for place, text in (("progress", self.progress("third")), ("health", health)):
            lines = [line for line in text.splitlines() if " of Eve (" in line and " of Max (" in line]
            if len(lines) != 1:
                raise TrialFault(f"second week: {place} does not name Eve and Max:\n{text}")
            self.seen(f"second week: {place}: {lines[0]}")
        number = re.search(r"computer (\d+) of Max \(", health)
        assert number is not None
        jobs = self.machine.run(f"bsched-tools host --project {PROJECT} {number[1]}")
        more = jobs.count("third_")
        if more > MOST_HELD_BACK:
            raise TrialFault(f"second week: the broken computer got {more} more jobs:\n{jobs}")
        self.seen(f"second week: of {ALL - FIRST - SECOND} further jobs the broken computer got {more}")

    def check_spoiled_output(self) -> None:
        """An output that root changes in the project's store is named and left out by `collect`, and `health`
        names it. A later result with the same content makes it good.
        """
        third = list(self.inputs)[FIRST + SECOND :]
        name = next(name for name in third if not self.inputs[name].can_hold)
        spoiled = self.machine.run(f"grep -lx UNSAT {FOLDER}/bridge/uploads/store/*").strip()
        self.machine.run(f"chmod u+w {spoiled} && echo more >> {spoiled} && rm -r {OUTPUTS}/third_*")
        self.machine.run(f"rm -f {FOLDER}/units/compared.json")  # else it is read within a day
        collect = f"bsched-tools collect --project {PROJECT} --to {OUTPUTS}"
        health = f"bsched-tools health --project {PROJECT}"
        for command, status in ((collect, 1), (health, 2)):
            done = self.machine.finished(command, 120)
            if done.returncode != status or spoiled not in done.stdout:
                raise TrialFault(f"second week: {command}: status {done.returncode}\n{done.stdout}")
        line = next(line for line in done.stdout.splitlines() if spoiled in line)
        self.seen(f"second week: {line}")
        self.submit("fourth", [name])
        self.wait_for("fourth", "done     1 of 1")
        self.machine.run(collect, 120)
        for folder in (f"{OUTPUTS}/fourth_{name}", f"{OUTPUTS}/third_{name}"):
            answer = self.machine.run(f"cat {folder}/out")
            if answer != "UNSAT\n":
                raise TrialFault(f"second week: {folder} has {answer!r}")
        self.seen("second week: the same content from other computers makes it good, and collect brings all")
