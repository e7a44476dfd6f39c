"""A project behind nginx and gunicorn, as an installed one is, for measurements. nginx has the lines of the
package for downloads.
"""
import hashlib
import os
import re
import shlex
import socket
import subprocess
import time
from pathlib import Path

from bsched_bridge.uploads.tokens import UploadTokens
from served import free_port
from uploading import HEAD

from . import project
from .programs import BRIDGE, Bridge, Program, Scheduler, TrialFault

ANSWER_SECONDS = 600
BLOCK = bytes(range(256)) * 4096  # a megabyte
OUTPUT_FILES = 'title = "Sums"\noutput_files = [{{ open_name = "out", max_nbytes = {most} }}]\n'
UPLOADS = (
    '\n[uploads]\nfolder = "uploads"\nfree_bytes = 0\nmost_bytes = 1_000_000_000_000\n'
    "most_result_bytes = 1_000_000_000_000\n"
)
NGINX = """\
daemon off;
user root;
pid {folder}/nginx.pid;
error_log {folder}/nginx_errors.log;
events {{ worker_connections 4096; }}
http {{
    access_log off;
    client_body_temp_path {folder}/nginx_body;
    proxy_temp_path {folder}/nginx_proxy;
    {limits}
    server {{
        listen 127.0.0.1:{port};
        {locations}
    }}
}}
"""
UNLIMITED = """
        client_max_body_size 16m;
        location / {{ proxy_pass http://127.0.0.1:{bridge}; }}
        location /file_upload_handler {{
            proxy_pass http://127.0.0.1:{bridge};
            client_max_body_size {most};
            proxy_read_timeout 600s;
        }}
"""
TEMPLATES = BRIDGE.parent / "packaging" / "nginx"
LIMITS = (TEMPLATES / "limits.conf").read_text()
LOCATIONS = (TEMPLATES / "locations.conf").read_text()
UNIT = Path("debian", "bsched-tools@.bsched-bridge.service")


def nginx_lines(folder: Path, port: int, bridge_port: int, most: int) -> str:
    """Returns the settings of nginx without limits for one address. Those of downloads are the package's."""
    found = re.search(r"^location @PATH@download/ \{.*?^\}$", LOCATIONS, re.MULTILINE | re.DOTALL)
    if found is None:
        raise TrialFault("the lines for nginx have no location of downloads")
    locations = UNLIMITED.format(bridge=bridge_port, most=most) + found[0]
    return filled(folder, port, bridge_port, locations)


def package_lines(folder: Path, port: int, bridge_port: int, most: int) -> str:
    """Returns the settings of nginx as `bsched-project nginx` writes them, with their limits."""
    locations = LOCATIONS.replace("/dev/null crit", f"{folder}/nginx_quiet.log")
    locations = locations.replace("@MOST_UPLOAD@", str(most))
    return filled(
        folder, port, bridge_port, re.sub(r"^location @PATH@stats/.*?^\}$", "", locations, 0, re.M | re.S)
    )


def filled(folder: Path, port: int, bridge_port: int, locations: str) -> str:
    """Returns the settings of nginx with some locations."""
    limits = LIMITS.replace("/var/lib/nginx", str(folder))
    for name, text in (("@PATH@", "/"), ("@BRIDGE_PORT@", str(bridge_port)), ("@NAME@", "trial")):
        locations = locations.replace(name, text)
    return NGINX.format(folder=folder, port=port, limits=limits, locations=locations)


def gunicorn_command(port: int, bridge: Path) -> list[str]:
    """Returns the command of the unit of a clone."""
    unit = (bridge.parent / UNIT).read_text()
    line = re.search(r"^ExecStart=/usr/bin/(gunicorn .*)$", unit, re.MULTILINE)
    if line is None:
        raise TrialFault("the unit of the bridge runs no gunicorn")
    return shlex.split(line[1].replace("${BRIDGE_PORT}", str(port)))


class Project:
    """A project behind nginx and gunicorn."""

    def __init__(
        self,
        program: str,
        folder: Path,
        most: int = 10**6,
        has_limits: bool = False,
        has_files: bool = True,
        bridge: Path = BRIDGE,
    ) -> None:
        """Makes the files of a project with the bridge in a folder. With has_files its application has an
        output file of at most `most` bytes.
        """
        self.folder, self.port, bridge_port, scheduler_port = folder, free_port(), free_port(), free_port()
        project.make(folder, f"http://127.0.0.1:{self.port}/", bridge_port, scheduler_port)
        self.has_files = has_files
        if has_files:
            catalogue = folder / "catalogue.toml"
            catalogue.write_text(
                catalogue.read_text().replace('title = "Sums"\n', OUTPUT_FILES.format(most=most))
            )
            with (folder / "bridge.toml").open("a") as file:
                file.write(UPLOADS)
        if has_limits:
            lines = package_lines(folder, self.port, bridge_port, most + 8192)
        else:
            lines = nginx_lines(folder, self.port, bridge_port, most + 8192)
        (folder / "nginx.conf").write_text(lines)
        self.most = most
        self.scheduler = Scheduler(program, folder, scheduler_port, project.OPERATOR_KEY)
        self.bridge = Bridge(folder, bridge_port, bridge)
        command = gunicorn_command(bridge_port, bridge)
        self.gunicorn = Program("gunicorn", command, folder, bridge_port, self.bridge.environment)
        words = [
            "nginx",
            "-p",
            str(folder),
            "-c",
            str(folder / "nginx.conf"),
            "-e",
            str(folder / "errors.log"),
        ]
        self.nginx = Program("nginx", words, folder, self.port)

    def start(self) -> None:
        """Makes the tables, and starts all programs."""
        self.make_tables()
        self.start_programs()

    def make_tables(self) -> None:
        """Makes the tables with what is imported first, and the keys for code signing."""
        self.scheduler.order("create", "--settings", "settings.toml", "--tables", "project.db")
        for kind in project.IMPORTS:
            words = ["--tables", "project.db", "--kind", kind, "--batch", "first", "--file", f"{kind}.csv"]
            self.scheduler.order("import", *words)
        self.bridge.order("keygen")
        signature = self.bridge.order("sign", "files/sum_1", "--key", "code_sign_private")
        (self.folder / "sum_1.signature").write_text(signature)

    def start_programs(self) -> None:
        """Starts all programs, and waits until the bridge answers."""
        for program in (self.scheduler, self.gunicorn, self.nginx):
            program.start()
        self.wait_for_bridge()
        if self.has_files:
            self.tokens = UploadTokens((self.folder / "uploads" / "secret").read_bytes())

    def wait_for_bridge(self) -> None:
        """Waits until the bridge answers. gunicorn listens before the bridge has read its files."""
        for _ in range(300):
            try:
                self.call("first")
                return
            except (OSError, TrialFault):
                time.sleep(0.1)
        raise TrialFault("the bridge does not answer")

    def end(self) -> None:
        """Ends all programs."""
        for program in (self.nginx, self.gunicorn, self.scheduler):
            if program.process is not None:
                program.process.terminate()
                program.process.wait(30)

    def sent(self, path: str, head: bytes, blocks: int, rest: bytes, good: bytes) -> None:
        """Sends a message of a head, some megabytes and a rest, and checks the answer."""
        length = len(head) + blocks * len(BLOCK) + len(rest)
        lines = (
            f"POST {path} HTTP/1.1\r\nhost: localhost\r\nconnection: close\r\n"
            f"content-length: {length}\r\n\r\n"
        )
        with socket.create_connection(("127.0.0.1", self.port), timeout=ANSWER_SECONDS) as connection:
            connection.sendall(lines.encode() + head)
            for _ in range(blocks):
                connection.sendall(BLOCK)
            connection.sendall(rest)
            answer = b""
            while some := connection.recv(65536):
                answer += some
        if good not in answer:
            raise TrialFault(repr(answer))

    def url_of(self, name: str) -> str:
        """Returns the path of the URL of a file, as a reply has it."""
        return f"/file_upload_handler/{name}/{self.tokens.url_token(name)}"

    def upload(self, name: str, nbytes: int) -> None:
        """Uploads a file of this many bytes."""
        blocks, rest = divmod(nbytes, len(BLOCK))
        md5 = hashlib.md5()
        for _ in range(blocks):
            md5.update(BLOCK)
        md5.update(BLOCK[:rest])
        head = HEAD.format(
            name=name,
            token=self.tokens.token(name, self.most),
            max_nbytes=self.most,
            nbytes=nbytes,
            md5=md5.hexdigest(),
            offset=0,
        )
        self.sent(self.url_of(name), head.encode(), blocks, BLOCK[:rest], b"<status>0</status>")

    def call(self, host: str) -> None:
        """Sends a call."""
        recorded = (BRIDGE / "tests" / "requests" / "recorded" / "first.xml").read_text()
        text = recorded.replace("0fb84cfbc167689574d58ef96c0de1b7", host).replace("0.250000", "0.000000")
        self.sent("/cgi", text.encode(), 0, b"", b"<user_name>")

    def worker(self) -> int:
        """Returns the number of the bridge's process."""
        if self.gunicorn.process is None:
            raise TrialFault("gunicorn does not run")
        words = ["pgrep", "-P", str(self.gunicorn.process.pid)]
        return int(subprocess.run(words, capture_output=True, text=True, check=True).stdout.split()[0])

    def memory(self) -> int:
        """Returns the most memory that the bridge's process has had since it was last cleared, in MB."""
        child = self.worker()
        text = Path(f"/proc/{child}/status").read_text()
        Path(f"/proc/{child}/clear_refs").write_text("5")
        return int(text.partition("VmHWM:")[2].split()[0]) // 1024

    def processor_seconds(self) -> float:
        """Returns the processor time that the bridge's process took so far."""
        fields = Path(f"/proc/{self.worker()}/stat").read_text().rpartition(")")[2].split()
        return (int(fields[11]) + int(fields[12])) / os.sysconf("SC_CLK_TCK")
