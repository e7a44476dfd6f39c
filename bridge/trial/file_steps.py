"""What BOINC's client does with output files, programs with BOINC's library and plan classes: the second part
of `bridge/try`, whose head lists the steps.
"""
import hashlib
import json
import re
import sqlite3
import subprocess
import sys
from collections.abc import Callable
from contextlib import closing, suppress
from pathlib import Path
from typing import Any
from urllib.request import urlopen

from bsched_bridge.uploads.tokens import UploadTokens
from uploading import odd_messages

from . import file_project, project
from .programs import BRIDGE, Bridge, Client, Program, Scheduler
from .proxy import Fault, Message, Proxy
from .runs import (
    BRIDGE_PORT,
    CALLS_PORT,
    CLIENTS_PORT,
    FILE,
    SCHEDULER_PORT,
    URL,
    Run,
    known,
    seen,
    wants,
)

DISK = 8_000_000  # bytes of the disk on which the uploads are
PAUSE = 40  # milliseconds of a hundredth of a job
UPLOAD, DONE = "/file_upload_handler", b"<status>0</status>"
GIVE_UP = b"<data_server_reply>\n<status>-1</status>\n</data_server_reply>\n"
# for each workunit the numbers that it tests, and how many primes are below
LIMITS = {
    "first": 1000,
    "cut": 100,
    "between": 200,
    "again": 300,
    "given_up": 400,
    "long": 500,
    "talk": 600,
    "plain": 700,
    "several": 800,
    "card": 900,
    "busy": 1100,
    "alone": 1200,
    "full": 1300,
    "after": 1400,
}
PRIMES = {
    "first": 168,
    "cut": 25,
    "between": 46,
    "again": 62,
    "given_up": 78,
    "long": 95,
    "talk": 109,
    "plain": 125,
    "several": 139,
    "card": 154,
    "busy": 184,
    "alone": 196,
    "full": 211,
    "after": 222,
}
COPROC = (
    "<coproc><type>fakegpu</type><count>2</count><peak_flops>1e12</peak_flops>"
    "<device_nums>0 1</device_nums></coproc>"
)
PREFERENCES = (
    "<global_preferences><suspend_cpu_usage>0</suspend_cpu_usage><disk_interval>1</disk_interval>"
    "</global_preferences>\n"
)
# with it a client asks for no more than it can begin soon
SMALL_BUFFER = (
    "<work_buf_min_days>0.0001</work_buf_min_days><work_buf_additional_days>0</work_buf_additional_days>"
)


def uploads_of(name: str) -> Callable[[Message], bool]:
    """Returns the test for an upload of a file of a workunit, with its bytes."""
    begin = f"<name>{known(f'{name}_')}".encode()
    return lambda message: message.path.startswith(UPLOAD) and begin in message.body


def sha256_of(text: str) -> str:
    """Returns the SHA-256 of a text."""
    return hashlib.sha256(text.encode()).hexdigest()


class Files(Run):
    """The steps of the trial."""

    def __init__(self, program: str, folder: Path):
        self.folder = folder
        file_project.make(folder, URL, BRIDGE_PORT, CALLS_PORT, PAUSE)
        for name, limit in LIMITS.items():
            (folder / "files" / f"{name}.in").write_text(f"{limit}\n")
        (folder / "uploads").mkdir()
        subprocess.run(["mount", "-t", "tmpfs", "-o", f"size={DISK}", "disk", folder / "uploads"], check=True)
        self.scheduler = Scheduler(program, folder, SCHEDULER_PORT, project.OPERATOR_KEY, FILE)
        self.bridge = Bridge(folder, BRIDGE_PORT, file=FILE)
        self.programs: list[Program] = [self.bridge, self.scheduler]
        self.ann = self.client("ann", project.ACCOUNTS["Ann"])
        self.bob = self.client("bob", project.ACCOUNTS["Bob"])
        self.clients = [self.ann, self.bob]

    def begin(self) -> None:
        """Makes the project and starts all programs."""
        self.scheduler.order("create", "--settings", "settings.toml", "--tables", "project.db")
        for kind in ("accounts", "apps", "versions"):
            words = ["--tables", "project.db", "--kind", kind, "--batch", "first", "--file", f"{kind}.csv"]
            self.scheduler.order("import", *words)
        self.bridge.order("keygen")
        for name in file_project.file_names():
            signature = self.bridge.order("sign", f"files/{name}", "--key", "code_sign_private")
            (self.folder / f"{name}.signature").write_text(signature)
        self.scheduler.start()
        self.before_bridge = Proxy(CLIENTS_PORT, BRIDGE_PORT)
        self.behind_bridge = Proxy(CALLS_PORT, SCHEDULER_PORT)
        self.bridge.start()
        for client in self.clients:
            (client.home / "global_prefs_override.xml").write_text(PREFERENCES)
            client.start()

    # ---- What the steps share

    def give(self, name: str, quorum: int, errors: int = 3, app: str = "primes") -> None:
        """Imports a workunit while bsched serves."""
        self.scheduler.asked(
            f"/import/workunits/{name}", project.workunit(name, quorum, errors).replace(",sum,", f",{app},")
        )

    def plan(self, fits: Callable[[Message], bool], **more: Any) -> Fault:
        """Plans a fault between the clients and the bridge."""
        return self.before_bridge.plan(Fault(fits, **more))

    def reports(self, workunit: str) -> list[dict[str, object]]:
        """Returns the results of a workunit that bsched got, each with its output, and acknowledged."""
        found = []
        for message in self.behind_bridge.messages:
            if message.path == "/scheduler" and message.answer and b'"results"' in message.answer:
                for result in json.loads(message.body)["results"]:
                    if result["name"].rpartition("_")[0] == workunit:
                        found.append(result)
        return found

    def until_done(self, workunit: str, count: int) -> None:
        """Waits until bsched has got so many successes of a workunit."""

        def is_so() -> bool:
            for client in self.clients:
                client.command(
                    "--network_available"
                )  # it retries failed transfers now, and not in some minutes
            names = {one["name"] for one in self.reports(workunit) if one["exit_status"] == 0}
            return len(names) >= count

        self.until(is_so, f"{count} results of {workunit} are reported", *self.clients)

    def output(self, workunit: str, text: str | None = None) -> str:
        """Returns the output that bsched compares."""
        text = f"{PRIMES[workunit]}\n" if text is None else text
        return f"sha256:{sha256_of(text)} {len(text)}"

    def store(self, text: str) -> bool:
        """Returns whether a content is stored."""
        path = self.folder / "uploads" / "store" / sha256_of(text)
        return path.is_file() and path.read_text() == text

    # ---- The steps

    def uploads(self) -> None:
        """Both compute the same workunit. The answer to an upload of each is lost."""
        self.give("first", 2)
        faults = [
            self.plan(lambda one: uploads_of("first")(one) and DONE in (one.answer or b"")) for _ in "ab"
        ]
        for client in self.clients:
            client.attach()
        for fault in faults:
            self.until(fault.met.is_set, "an answer to an upload is lost", *self.clients)
        seen("ann, bob: an answer to an upload of each is lost")
        self.until_done("first", 2)
        outputs = {one["output"] for one in self.reports("first")}
        wants(
            outputs == {f"out {self.output('first')}\nnotes absent"}, f"both have the right output: {outputs}"
        )
        wants(self.store("168\n"), "the file is stored")
        self.until(
            lambda: all(client.credit() == 5 for client in self.clients), "both have credit", *self.clients
        )
        seen(f"ann, bob: uploaded again and reported; both have credit; {outputs.pop()!r} is stored")

    def killed(self) -> None:
        """Kills the bridge in an upload, and between an upload and its report."""
        cut = self.plan(uploads_of("cut"), is_cut=True)
        self.give("cut", 1)
        self.until(cut.met.is_set, "an upload is half way", *self.clients)
        self.bridge.kill()
        cut.let_go.set()
        self.bridge.start()
        left = list((self.folder / "uploads" / "temp").iterdir())
        wants(not left, f"nothing is left of it: {left}")
        self.until_done("cut", 1)
        seen(
            "bridge: killed when it had got half of an upload; nothing was left, and the client sent it again"
        )
        wants(self.store("25\n"), "the file is stored")
        report = self.plan(
            lambda one: f"<name>{known('between_0')}</name>".encode() in one.body
            and b"<stderr_out>" in one.body,
            is_cut=True,
        )
        self.give("between", 1)
        self.until(report.met.is_set, "a report is half way", *self.clients)
        self.bridge.kill()
        report.let_go.set()
        self.bridge.start()
        self.until_done("between", 1)
        wants(self.store("46\n"), "the file is stored")
        seen("bridge: killed between an upload and its report; the report came again, and the file was there")

    def repeated(self) -> None:
        """The reply to a report is lost."""
        fault = self.plan(
            lambda one: f"<name>{known('again_0')}</name>".encode() in one.body
            and b"<stderr_out>" in one.body
        )
        self.give("again", 1)
        self.until(fault.met.is_set, "the reply to a report is lost", *self.clients)
        count = len(self.reports("again"))
        self.until(lambda: len(self.reports("again")) > count, "it is reported again", *self.clients)
        reports = {json.dumps(one) for one in self.reports("again")}
        wants(len(reports) == 1, f"both reports say the same: {reports}")
        self.until(
            lambda: not any(client.tasks() for client in self.clients), "it is forgotten", *self.clients
        )
        seen("a client reported again after a lost reply, and bsched got the same report twice")

    def given_up(self) -> None:
        """A client gives up an upload."""
        fault = self.plan(uploads_of("given_up"), another=GIVE_UP)
        self.give("given_up", 1)
        self.until(fault.met.is_set, "an upload is refused for good", *self.clients)
        self.until(lambda: self.reports("given_up"), "the result is reported", *self.clients)
        first = self.reports("given_up")[0]
        wants(first["exit_status"] == -187, f"it is an error: {first}")
        self.until_done("given_up", 1)
        wants(self.store("78\n"), "the file of the other result is stored")
        seen(
            f"a client gave up an upload, and its success became an error ({first['output']}); "
            "another did the work"
        )

    def on_disk(self) -> list[str]:
        """Returns the files of the folder of uploads, and how many rows its database has."""
        folder = self.folder / "uploads"
        names = sorted(str(path.relative_to(folder)) for path in folder.glob("*/*"))
        with closing(sqlite3.connect(folder / "uploads.db")) as tables:
            return [
                *names,
                *map(str, tables.execute("SELECT count(*), total(nbytes) FROM upload").fetchone()),
            ]

    def forged(self) -> None:
        """Odd and forged messages store nothing."""
        tokens = UploadTokens((self.folder / "uploads" / "secret").read_bytes())
        names = (f"{known('forged_0')}_0", f"{known('forged_0')}_1")
        messages = list(odd_messages(names, *(tokens.token(name, 20_000) for name in names)))
        before, path = self.on_disk(), f"{UPLOAD}/{names[0]}/{tokens.url_token(names[0])}"
        for what, message, status in messages:
            with urlopen(f"http://127.0.0.1:{BRIDGE_PORT}{path}", message, timeout=30) as response:
                found = re.search(rb"<status>(-?\d+)</status>", response.read())
            wants(found and int(found[1]) == status, f"the answer to {what} is {status}: {found}")
            wants(self.on_disk() == before, f"{what} stores nothing")
        seen(f"bridge: {len(messages)} odd and forged messages stored nothing")

    def full(self) -> None:
        """The disk of the uploads is full for a while."""
        before = self.on_disk()
        self.give("full", 1)
        self.until(
            lambda: any(known("full_0") in client.tasks() for client in self.clients),
            "a client has it",
            *self.clients,
        )
        filling = self.folder / "uploads" / "filling"
        with filling.open("wb", buffering=0) as file, suppress(OSError):
            while True:
                file.write(bytes(4096))
        count = len(self.before_bridge.messages)

        def refused() -> bool:
            return any(
                uploads_of("full")(one) and one.answer and DONE not in one.answer
                for one in self.before_bridge.messages[count:]
            )

        self.until(refused, "an upload is refused", *self.clients)
        self.until(
            lambda: any("can't take this file at the moment" in client.log() for client in self.clients),
            "the client reads that it is for a while",
            *self.clients,
        )
        wants(not self.reports("full"), "nothing is reported yet")
        self.give("after", 2)
        for client in self.clients:
            client.update()
        filling.unlink()
        self.until_done("full", 1)
        wants(self.store("211\n"), "the file is stored")
        wants(set(before[:-2]) <= set(self.on_disk()), "what was there before is there")
        self.until_done("after", 2)
        wants(self.store("222\n"), "the file is stored")
        seen(
            "bridge: with a full disk it refused for a while; then the client sent the file again, "
            "and nothing is lost"
        )

    def stopped(self) -> None:
        """A client is killed with its job, which continues at its checkpoint."""
        self.give("long", 1)
        holder: list[Client] = []

        def has_checkpoint() -> bool:
            for client in self.clients:
                for path in client.home.glob("slots/*/checkpoint"):
                    if path.read_text().split()[1:2] > ["2"] and int(path.read_text().split()[1]) > 50:
                        holder[:] = [client]
            return bool(holder)

        self.until(has_checkpoint, "a job has a checkpoint", *self.clients)
        (client,) = holder
        client.kill()
        seen(f"{client.name}: killed when its job had a checkpoint")
        client.start()
        self.until_done("long", 1)
        wants(self.store("95\n"), "the file is stored")
        wants(self.store("started 2 times\n"), "the program began at its checkpoint")
        seen(f"{client.name}: started again; the program began at its checkpoint")

    def wrapped(self) -> None:
        """A program that does not know BOINC runs in a wrapper."""
        self.give("text", 2, app="words")
        self.until_done("text", 2)
        text = "".join(
            f"      {count} {word}\n" for count, word in ((2, "be"), (1, "not"), (1, "or"), (2, "to"))
        )
        wants(self.store(text), "its file is stored")
        wants(
            {one["output"] for one in self.reports("text")} == {f"counts {self.output('text', text)}"},
            "they agree",
        )
        seen("ann, bob: ran a program that does not know BOINC in a wrapper, and agree")

    def talked(self) -> None:
        """A program sends a message that is no XML."""
        self.give("talk", 1, app="talks")
        self.until_done("talk", 1)
        messages = [one for one in self.before_bridge.messages if b"<msg_from_host>" in one.body]
        wants(messages and b"a<b" in messages[0].body, "the message came as the program wrote it")
        wants(
            any(b"<message_ack>1</message_ack>" in (one.answer or b"") for one in messages),
            "it was acknowledged",
        )
        wants(not list(self.folder.glob("*/projects/*/trickle_up*")), "no client has it any more")
        seen(
            f"a program sent `a<b`; it came {len(messages)} times, was acknowledged, "
            "and the result was reported"
        )

    def classes(self) -> None:
        """A client runs jobs for several processors and for a coprocessor."""
        for client in self.clients:
            client.command("--project", URL, "nomorework")
        third = self.client("third", project.ACCOUNTS["Ann"])
        third.words.remove("--no_gpus")
        config = (third.home / "cc_config.xml").read_text()
        (third.home / "cc_config.xml").write_text(
            config.replace("<ncpus>2</ncpus>", f"<ncpus>4</ncpus>{COPROC}")
        )
        (third.home / "global_prefs_override.xml").write_text(
            PREFERENCES.replace("</global", f"{SMALL_BUFFER}</global")
        )
        third.start()
        self.clients = [third]
        for name, app in (("plain", "primes"), ("several", "several"), ("card", "card")):
            self.give(name, 1, app=app)
        third.attach()
        for name in ("plain", "several", "card"):
            self.until_done(name, 1)
            wants(self.store(f"{PRIMES[name]}\n"), f"the file of {name} is stored")
        replies = b"".join(one.answer or b"" for one in self.before_bridge.messages)
        wants(b"<cmdline>--nthreads 4</cmdline>" in replies, "the job for several processors has four")
        seen("third: ran a plain job, one of four processors and one of a coprocessor")
        self.alone(third)

    def alone(self, client: Client) -> None:
        """A client whose processors have enough to do asks for its coprocessor alone."""
        line = project.workunit("busy", 1, 3).replace(",sum,", ",several,")
        self.scheduler.asked("/import/workunits/busy", line.replace(",10000000000,", ",4000000000000,"))
        self.until(lambda: known("busy_0") in client.tasks(), "the processors have enough to do", client)
        count = len(self.before_bridge.messages)
        self.give("alone", 1, app="card")
        self.until_done("alone", 1)
        asked = [
            one
            for one in self.before_bridge.messages[count:]
            if f"<name>{known('alone_0')}</name>".encode() in (one.answer or b"").partition(b"<result>")[2]
        ]
        wants(
            asked and b"<cpu_req_secs>0.000000</cpu_req_secs>" in asked[0].body, "it asked for no processor"
        )
        seen("third: asked for its coprocessor alone, and got a job for it")

    def swept(self) -> None:
        """The sweep deletes nothing, and each canonical result has its files."""
        self.scheduler.kill()  # then its tables can be read
        words = {**self.bridge.environment}
        words["PYTHONPATH"] += f":{BRIDGE.parent / 'tools'}"
        completed = subprocess.run(
            [
                sys.executable,
                "-m",
                "bsched_bridge",
                "sweep",
                "--config",
                "bridge.toml",
                "--tables",
                "project.db",
            ],
            cwd=self.folder,
            env=words,
            capture_output=True,
            text=True,
            timeout=60,
        )
        wants(
            completed.returncode == 0 and " 0 bytes are deleted" in completed.stdout,
            f"the sweep: {completed.stdout}{completed.stderr}",
        )
        seen(completed.stdout.strip())

    def end(self) -> None:
        """Ends all programs, and gives the disk back."""
        super().end()
        subprocess.run(["umount", self.folder / "uploads"], check=True)

    def run(self) -> None:
        """Runs all steps."""
        for step in (
            self.begin,
            self.uploads,
            self.killed,
            self.repeated,
            self.given_up,
            self.forged,
            self.full,
            self.stopped,
            self.wrapped,
            self.talked,
            self.classes,
            self.swept,
        ):
            step()
