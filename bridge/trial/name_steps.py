"""What BOINC's client does with the names of a later file: `bridge/try_names`, whose head lists the steps."""
import json
import re
from collections.abc import Callable
from pathlib import Path
from urllib.request import urlopen

from bsched_bridge.catalogue.output_files import upload_name
from bsched_files.file_names import workunit_in_file

from . import project
from .behind_nginx import OUTPUT_FILES, package_lines
from .programs import Client, Program
from .proxy import Fault, Message
from .runs import CLIENTS_PORT, FILE, URL, Run, known, seen, wants

FAULTS_PORT = 8085  # between nginx and the bridge
MOST = 1_000_000
UPLOAD, QUESTION = "/file_upload_handler", b"<get_file_size>"
UPLOADS = '\n[uploads]\nfolder = "uploads"\nfree_bytes = 0\nmost_bytes = 1_000_000_000\n'
AGAIN = b"<data_server_reply>\n<status>1</status>\n</data_server_reply>\n"
PROGRAM = """\
#!/bin/sh
# Writes a file of 4,000 lines; with --seconds N it takes so long.
set -eu
[ "${1:-}" != --seconds ] || sleep "$2"
line=0
while [ $line -lt 4000 ]; do
    echo "line $line of a file that is longer than 8192 bytes"
    line=$((line + 1))
done > out
echo 0 > boinc_finish_called
"""
SECONDS = {"sent": 1, "shown": 120, "held": 1, "cut": 1, "waits": 1, "dropped": 1, "proxied": 1}
ABORTED, UPLOAD_LOST = 203, -187  # exit statuses
PROXY = (
    "<proxy_info><http_server_name>127.0.0.9</http_server_name><http_server_port>9</http_server_port>"
    "<no_proxy>127.0.0.1</no_proxy></proxy_info>"
)


def uploads_of(workunit: str) -> Callable[[Message], bool]:
    """Returns the test for an upload of the file of a workunit's first result, with its bytes."""
    name = f"<name>{upload_name(known(f'{workunit}_0'), 0)}</name>".encode()
    return lambda message: message.path.startswith(UPLOAD) and name in message.body


class Names(Run):
    """The steps of the trial, and the programs that they work on."""

    proxy_port = FAULTS_PORT

    def __init__(self, program: str, folder: Path):
        project.SECONDS.update(SECONDS)
        super().__init__(program, folder)
        (folder / "files" / "sum_1").write_text(PROGRAM)
        catalogue = folder / "catalogue.toml"
        text = catalogue.read_text().replace('title = "Sums"\n', OUTPUT_FILES.format(most=MOST))
        catalogue.write_text(text)
        with (folder / "bridge.toml").open("a") as file:
            file.write(UPLOADS)
        path = folder / "nginx.conf"
        path.write_text(package_lines(folder, CLIENTS_PORT, FAULTS_PORT, MOST + 8192))
        words = ["nginx", "-p", str(folder), "-c", str(path), "-e", str(folder / "errors.log")]
        self.nginx = Program("nginx", words, folder, CLIENTS_PORT)
        self.programs.insert(0, self.nginx)
        self.ann = self.client("ann", project.ACCOUNTS["Ann"])
        self.bob = self.client("bob", project.ACCOUNTS["Bob"])

    def begin(self) -> None:
        """Makes the project and starts all programs but Bob's client."""
        super().begin()
        self.nginx.start()
        self.ann.start()
        self.ann.attach()

    # ---- What the steps share

    def statuses(self, workunit: str) -> list[int]:
        """Returns the exit statuses of a workunit's results that bsched has heard."""
        heard = [one for one in self.behind_bridge.messages if one.path == "/scheduler" and one.answer]
        reports = [report for one in heard for report in json.loads(one.body).get("results", ())]
        return [one["exit_status"] for one in reports if one["name"].rpartition("_")[0] == workunit]

    def until_reported(self, workunit: str, status: int, client: Client) -> None:
        """Waits until bsched has heard a result of a workunit with this exit status."""

        def is_so() -> bool:
            client.command("--network_available")  # it retries failed transfers now, and not in some minutes
            return status in self.statuses(workunit)

        self.until(is_so, f"a result of {workunit} is reported with status {status}", client)

    def begun(self, workunit: str, client: Client, errors: int = 3) -> str:
        """Imports a workunit, waits until a client has a job of it, and returns the name of the job."""
        self.give(workunit, 1, errors)
        name = known(f"{workunit}_0")
        self.until(lambda: name in client.tasks(), f"{client.name} has {name}", client)
        return name

    # ---- The steps

    def sent(self) -> None:
        """A result with its file."""
        name = self.begun("sent", self.ann)
        self.until_reported("sent", 0, self.ann)
        self.until(lambda: name not in self.ann.tasks(), "the report is acknowledged", self.ann)
        asked = [one for one in self.before_bridge.messages if QUESTION in one.body]
        wants(asked and upload_name(name, 0).encode() in asked[0].body, "the client asks for the file's size")
        seen(f"ann: uploaded {upload_name(name, 0)} through nginx, after a question, and reported {name}")

    def shown(self) -> None:
        """The lists of boinccmd, and what it does with a task."""
        name = self.begun("shown", self.ann, errors=0)
        lines = f"name: {name}\n", f"WU name: {workunit_in_file('shown', FILE)}\n"
        wants(all(line in self.ann.command("--get_tasks") for line in lines), "boinccmd shows both names")
        mark = "suspended via GUI: yes"
        self.ann.command("--task", URL, name, "suspend")
        self.until(lambda: mark in self.ann.command("--get_tasks"), "the task is suspended")
        self.ann.command("--task", URL, name, "resume")
        self.until(lambda: mark not in self.ann.command("--get_tasks"), "the task is resumed")
        state = (self.ann.home / "client_state.xml").read_text()
        (number,) = re.findall(r"<hostid>(\d+)</hostid>", state)
        with urlopen(f"{URL}computer/{number}", timeout=30) as response:
            wants(f"{name}<".encode() in response.read(), "the page of the computer has the name")
        self.ann.command("--task", URL, name, "abort")
        self.until_reported("shown", ABORTED, self.ann)
        seen(f"ann: {name} was listed, suspended, resumed, shown on a page, and aborted")

    def held(self) -> None:
        """The answer to an upload is lost, and boinccmd shows the upload before."""
        fits = uploads_of("held")
        fault = self.before_bridge.plan(Fault(lambda one: fits(one) and bool(one.answer), is_held=True))
        name = self.begun("held", self.ann)
        self.until(fault.met.is_set, "an answer to an upload is held", self.ann)
        wants(f"name: {upload_name(name, 0)}\n" in self.ann.command("--get_file_transfers"), "it is listed")
        fault.let_go.set()
        self.ann.command("--file_transfer", URL, upload_name(name, 0), "retry")
        self.until_reported("held", 0, self.ann)
        seen(f"ann: {upload_name(name, 0)} was listed; its answer was lost, and it came again")

    def cut(self) -> None:
        """The bridge is killed in the middle of an upload."""
        fault = self.before_bridge.plan(Fault(uploads_of("cut"), is_cut=True))
        self.begun("cut", self.ann)
        self.until(fault.met.is_set, "an upload is half way", self.ann)
        self.bridge.kill()
        fault.let_go.set()
        self.bridge.start()
        self.until_reported("cut", 0, self.ann)
        seen("bridge: killed when it had got half of an upload, which came again")

    def waits(self) -> None:
        """The client is killed while its upload waits."""
        fault = self.before_bridge.plan(Fault(uploads_of("waits"), another=AGAIN))
        name = self.begun("waits", self.ann)
        self.until(fault.met.is_set, "an upload is put off", self.ann)
        self.ann.kill()
        self.ann.start()
        wants(f"name: {upload_name(name, 0)}\n" in self.ann.command("--get_file_transfers"), "it is listed")
        self.until_reported("waits", 0, self.ann)
        seen("ann: killed while an upload waited; after the start it came")

    def dropped(self) -> None:
        """An upload is aborted. The client gets no further job."""
        faults = [self.before_bridge.plan(Fault(uploads_of("dropped"), another=AGAIN)) for _ in range(100)]
        name = self.begun("dropped", self.ann, errors=0)
        self.ann.command("--project", URL, "nomorework")
        self.until(faults[0].met.is_set, "an upload is put off", self.ann)
        self.ann.command("--file_transfer", URL, upload_name(name, 0), "abort")
        self.until_reported("dropped", UPLOAD_LOST, self.ann)
        seen(f"ann: aborted the upload of {upload_name(name, 0)}, and the result is an error")

    def proxied(self) -> None:
        """The proxy of a client does not answer, and is not for the project's host."""
        path = self.bob.home / "cc_config.xml"
        path.write_text(path.read_text().replace("<options>", f"<options>{PROXY}"))
        self.bob.start()
        self.bob.attach()
        self.give("proxied", 1)
        self.until_reported("proxied", 0, self.bob)
        seen("bob: has a proxy that is not for the project's host, and uploaded without it")

    def run(self) -> None:
        """Runs all steps."""
        for step in (
            self.begin,
            self.sent,
            self.shown,
            self.held,
            self.cut,
            self.waits,
            self.dropped,
            self.proxied,
        ):
            step()
