"""Clients of the project. They do with messages what BOINC's client does: each repeats a message until it is
answered, and forgets only what was acknowledged.
"""
import hashlib
import http.client
import re
import secrets
import socket
import ssl
import threading
from collections.abc import Callable
from dataclasses import dataclass, field
from pathlib import Path
from typing import TypeVar
from urllib.parse import quote, urlsplit

from .image import HOST
from .networks import PROJECT
from .notes import Account, Notes, Report, Upload

PORT = 443
ANSWER_SECONDS = 30  # without an answer the message is sent again
PAUSE_SECONDS = 1.0  # between two messages of a client
AGAIN_SECONDS = 1.0
MOST_ANSWER_BYTES = 4_000_000
MOST_JOBS = 3  # that a client reports in one call
FILE_BYTES = 2_000  # of an output file
CALLS_OF_AN_ACCOUNT = 40  # then the client makes another account
ALLOWED_NAME = re.compile(r"[A-Za-z0-9_.+-]{1,200}")
Found = TypeVar("Found")

CALL = """\
<scheduler_request>
<authenticator>{key}</authenticator>
<hostid>{hostid}</hostid>
<rpc_seqno>{number}</rpc_seqno>
<work_req_seconds>{seconds}</work_req_seconds>
<platform_name>x86_64-pc-linux-gnu</platform_name>
<host_info><host_cpid>{cpid}</host_cpid><p_fpops>1000000000.0</p_fpops><m_nbytes>8e9</m_nbytes>\
<d_free>8e9</d_free></host_info>
{reports}<other_results>
{held}</other_results>
</scheduler_request>
"""
REPORT = """\
<result><name>{name}</name><exit_status>0</exit_status><state>5</state>\
<stderr_out><core_client_version>7.20.5</core_client_version>
<![CDATA[
<stderr_txt>
</stderr_txt>
]]>
</stderr_out>{files}</result>
"""
FILE_INFO = """\
<file_info>
    <name>{name}</name>
    <nbytes>{nbytes}.000000</nbytes>
    <max_nbytes>{most}.000000</max_nbytes>
    <md5_cksum>{md5}</md5_cksum>
    <upload_url>{url}</upload_url>
</file_info>
"""
UPLOAD = """\
<data_server_request>
    <core_client_major_version>7</core_client_major_version>
    <core_client_minor_version>20</core_client_minor_version>
    <core_client_release>5</core_client_release>
<file_upload>
<file_info>
<name>{name}</name>
<xml_signature>
{token}
</xml_signature>
<max_nbytes>{most}</max_nbytes>
</file_info>
<nbytes>{nbytes}</nbytes>
<md5_cksum>{md5}</md5_cksum>
<offset>0</offset>
<data>
"""


class Unanswered(Exception):
    """There was no good answer to a message, and why."""


@dataclass(frozen=True, slots=True)
class OutputFile:
    """An output file of a job, as a reply names it, and what the client wrote into it."""

    name: str
    url: str
    token: str
    most: int
    data: bytes

    @property
    def md5(self) -> str:
        """Returns the MD5 of its content."""
        return hashlib.md5(self.data, usedforsecurity=False).hexdigest()

    @property
    def sha256(self) -> str:
        """Returns the SHA-256 of its content."""
        return hashlib.sha256(self.data).hexdigest()


@dataclass(slots=True)
class Job:
    """A job of a client."""

    name: str
    files: list[OutputFile]
    is_uploaded: bool = False


def element(text: str, name: str) -> str:
    """Returns the text of the first element of a kind."""
    found = re.search(rf"<{name}>\s*([^<]*?)\s*</{name}>", text)
    if found is None:
        raise Unanswered(f"there is no {name} in {text[:300]!r}")
    return found[1]


def jobs_of(reply: str) -> list[Job]:
    """Returns the jobs of a reply. The content of their files is made here, so that two are never equal."""
    infos: dict[str, OutputFile] = {}
    for text in re.findall(r"<file_info>(.*?)</file_info>", reply, re.DOTALL):
        if "<xml_signature>" in text:
            name, most = element(text, "name"), int(element(text, "max_nbytes"))
            data = f"{name} {secrets.token_hex(16)}\n".encode().ljust(FILE_BYTES, b".")
            infos[name] = OutputFile(name, element(text, "url"), element(text, "xml_signature"), most, data)
    jobs = []
    for text in re.findall(r"<result>(.*?)</result>", reply, re.DOTALL):
        names = re.findall(r"<file_name>([^<]*)</file_name>", text)
        jobs.append(Job(element(text, "name"), [infos[name] for name in names if name in infos]))
    return jobs


class Connection:
    """A way to the project, over TLS. Each message has a connection of its own."""

    def __init__(self, certificate: Path):
        self.context = ssl.create_default_context(cafile=str(certificate))

    def asked(self, method: str, path: str, body: bytes | None = None) -> str:
        """Returns the answer to a message. Raises Unanswered if there is none, or not a good one."""
        try:
            with socket.create_connection((PROJECT, PORT), ANSWER_SECONDS) as plain:
                with self.context.wrap_socket(plain, server_hostname=HOST) as secure:
                    connection = http.client.HTTPConnection(HOST, timeout=ANSWER_SECONDS)
                    connection.sock = secure
                    connection.request(method, path, body)
                    response = connection.getresponse()
                    answer = response.read(MOST_ANSWER_BYTES).decode("utf-8", "replace")
        except (OSError, http.client.HTTPException) as error:
            raise Unanswered(repr(error)) from None
        if response.status != 200:
            raise Unanswered(f"status {response.status}")
        return answer


@dataclass(slots=True)
class Computer:
    """A computer of a volunteer: its account, its number, and the jobs that it has."""

    account: Account
    cpid: str = field(default_factory=lambda: secrets.token_hex(16))
    hostid: str = "0"
    number: int = 0
    jobs: dict[str, Job] = field(default_factory=dict)

    def call(self, seconds: int) -> bytes:
        """Returns the next call, which reports what was uploaded and asks for work."""
        self.number += 1
        ready = [job for job in self.jobs.values() if job.is_uploaded]
        reports = "".join(map(report_of, ready))
        held = "".join(f"<other_result><name>{name}</name></other_result>\n" for name in self.jobs)
        values = {"key": self.account.key, "hostid": self.hostid, "number": self.number}
        return CALL.format(**values, seconds=seconds, cpid=self.cpid, reports=reports, held=held).encode()


def report_of(job: Job) -> str:
    """Returns the report of a job."""
    files = "".join(
        FILE_INFO.format(name=one.name, nbytes=len(one.data), most=one.most, md5=one.md5, url=one.url)
        for one in job.files
    )
    return REPORT.format(name=job.name, files=files)


class Volunteer(threading.Thread):
    """A volunteer with one computer after the other. What is acknowledged goes into the notes."""

    def __init__(self, number: int, connection: Connection, notes: Notes, ending: threading.Event):
        super().__init__(name=f"volunteer {number}", daemon=True)
        self.number, self.connection, self.notes, self.ending = number, connection, notes, ending
        self.accounts = 0
        self.last_fault = ""  # of a message, for whoever looks at a trial that does not continue
        self.fault: str | None = None  # that ended the volunteer

    def run(self) -> None:
        """Lives until the trial ends."""
        try:
            while not self.ending.is_set():
                self.live(Computer(self.new_account()))
        except Ended:
            pass
        except Exception as error:  # noqa: BLE001  # the trial asks for it, and ends with it
            self.fault = repr(error)

    def until_answered(self, ask: Callable[[], Found]) -> Found:
        """Asks again and again until there is a good answer."""
        while not self.ending.is_set():
            try:
                found = ask()
            except Unanswered as fault:
                self.last_fault = str(fault)
                self.ending.wait(AGAIN_SECONDS)
                continue
            self.notes.answered()
            self.ending.wait(PAUSE_SECONDS)
            return found
        raise Ended

    def new_account(self) -> Account:
        """Makes an account, and notes it."""
        self.accounts += 1
        email = f"v{self.number}-{self.accounts}-{secrets.token_hex(3)}@sums.example"
        password = hashlib.md5(email.encode(), usedforsecurity=False).hexdigest()
        path = (
            f"/project/create_account.php?email_addr={quote(email)}&passwd_hash={password}"
            f"&user_name=volunteer{self.number}&consent_flag=1"
        )
        key = self.until_answered(lambda: element(self.connection.asked("GET", path), "authenticator"))
        account = Account(email, password, key)
        self.notes.account(account)
        return account

    def live(self, computer: Computer) -> None:
        """Calls, uploads and reports by a computer, a number of times."""
        for _ in range(CALLS_OF_AN_ACCOUNT):
            self.until_answered(lambda: self.call(computer, 10 * MOST_JOBS))
            for job in list(computer.jobs.values()):
                for file in [] if job.is_uploaded else job.files:
                    self.until_answered(lambda file=file: self.upload(file))  # type: ignore[misc]
                    self.notes.upload(Upload(file.name, file.sha256))
                job.is_uploaded = True
        while computer.jobs:
            self.until_answered(lambda: self.call(computer, 0))

    def call(self, computer: Computer, seconds: int) -> None:
        """Sends a call, and takes in the reply."""
        reply = self.connection.asked("POST", "/project/cgi", computer.call(seconds))
        if "<user_name>" not in reply:
            raise Unanswered(reply[:500])
        computer.hostid = element(reply, "hostid") if "<hostid>" in reply else computer.hostid
        for name in re.findall(r"<result_ack>\s*<name>([^<]*)</name>", reply):
            if (job := computer.jobs.pop(name, None)) is not None:
                self.notes.report(Report(name, job.files[0].sha256))
        for job in jobs_of(reply):
            computer.jobs.setdefault(job.name, job)

    def upload(self, file: OutputFile) -> None:
        """Uploads a file."""
        values = {"name": file.name, "token": file.token, "most": file.most, "md5": file.md5}
        body = UPLOAD.format(**values, nbytes=len(file.data)).encode() + file.data
        answer = self.connection.asked("POST", urlsplit(file.url).path, body)
        if element(answer, "status") != "0":
            raise Unanswered(answer[:500])


class Ended(Exception):
    """The trial ends."""


class Volunteers:
    """All volunteers of the trial."""

    def __init__(self, count: int, certificate: Path, notes: Notes):
        self.notes, self.ending = notes, threading.Event()
        connection = Connection(certificate)
        self.all = [Volunteer(number, connection, notes, self.ending) for number in range(1, count + 1)]
        for volunteer in self.all:
            volunteer.start()

    def faults(self) -> list[str]:
        """Returns why volunteers ended."""
        return [f"{one.name}: {one.fault}" for one in self.all if one.fault is not None]

    def last_faults(self) -> str:
        """Returns what each volunteer got last in place of an answer."""
        return "; ".join(f"{one.name}: {one.last_fault}" for one in self.all if one.last_fault)

    def end(self) -> None:
        """Ends all volunteers."""
        self.ending.set()
        for volunteer in self.all:
            volunteer.join(2 * ANSWER_SECONDS)
