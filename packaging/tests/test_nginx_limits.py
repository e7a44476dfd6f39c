"""Tests the limits in the files for nginx, before a bridge that answers by itself."""
import http.client
import ipaddress
import re
import ssl
import threading
import time
from collections import Counter
from collections.abc import Iterator
from concurrent.futures import ThreadPoolExecutor
from contextlib import contextmanager
from dataclasses import dataclass, field
from http.server import BaseHTTPRequestHandler, ThreadingHTTPServer
from pathlib import Path

import pytest
from joining import wait_until
from nginx_tried import NGINX, URL, bridge_port, served, written
from project_machine import Machine
from served import free_port

PASSED, REFUSED, LENGTH_REQUIRED, TOO_LARGE, NO_ANSWER = 200, 503, 411, 413, 0
MOST_OF_ADDRESS, MOST_OF_ACCOUNT, MOST_OF_SITE, MOST_OF_ALL, MOST_PLAIN = 8, 8, 16, 64, 4  # uploads
LARGE, MOST_LARGE, LARGE_OF_ADDRESS, LARGE_OF_SITE = 100_000, 16, 2, 4  # calls
BURST, CALL_BURST = 20, 40  # messages of one address at once, and calls
NETWORK = ipaddress.IPv6Network("2001:db8:c328:ff0a::/64")
CALLING_NETWORK = ipaddress.IPv6Network("2001:db8:c328:ff0b::/64")
NEVER = (
    "<data_server_reply>\n<status>-1</status>\n<message>The project refuses this file.</message>\n"
    "</data_server_reply>\n"
)


@pytest.fixture
def machine(tmp_path: Path) -> Machine:
    """Makes an empty folder of projects."""
    return Machine(tmp_path)


# ---- What a project's files say


def test_each_refusal_is_left_out_of_the_logs(machine: Machine) -> None:
    """Messages that one address sends beyond its limits would fill the disk with lines (27 GB a day)."""
    text = (written(machine, "sums", URL) / "locations.conf").read_text()
    limited = [part for part in re.findall(r"^location .*?^}", text, re.M | re.S) if "limit_" in part]
    assert len(limited) == 9
    for location in limited:
        is_quiet = "access_log off;" in location and "error_log /dev/null crit;" in location
        for kind in ("limit_req", "limit_conn"):
            if f"{kind} " in location:
                assert is_quiet or f"{kind}_log_level info;" in location, location
        assert is_quiet or "error_page 503 = @bsched_busy_sums;" in location, location


def test_no_body_may_stay_away_for_long(machine: Machine) -> None:
    """A body of which a byte comes now and then keeps a place: ten seconds are allowed for each byte."""
    text = (written(machine, "sums", URL) / "locations.conf").read_text()
    passed = [part for part in re.findall(r"^location .*?^}", text, re.M | re.S) if "proxy_pass " in part]
    passed = [part for part in passed if "internal;" not in part and "return 404;" not in part]
    passed += [part for part in re.findall(r"^location .*?^}", text, re.M | re.S) if "large_call {" in part]
    assert len(passed) == 8 and all("client_body_timeout 10s;" in part for part in passed)


@pytest.mark.parametrize("zone, refusal_seconds", [("client_calls", 0.00156), ("upload_checks", 0.0012)])
def test_what_is_refused_of_four_addresses_takes_a_second_in_a_minute(
    machine: Machine, zone: str, refusal_seconds: float
) -> None:
    """Also in the first minute, in which as many come at once as may. A refused message takes so many seconds
    of a processor at most, at nginx and the bridge (docs/MEASURED.md).
    """
    files = written(machine, "sums", URL)
    limits, locations = ((files / name).read_text() for name in ("limits.conf", "locations.conf"))
    for name, addresses in ((f"bsched_{zone}", 4), (f"bsched_site_{zone}", 1)):
        (rate,) = map(int, re.findall(rf"zone={name}:10m rate=(\d+)r/s;", limits))
        (burst,) = set(map(int, re.findall(rf"limit_req zone={name} burst=(\d+) nodelay;", locations)))
        assert addresses * (burst + 60 * rate) * refusal_seconds < 1, name


def test_calls_of_all_lengths_count_together(machine: Machine) -> None:
    """A large call is led to a location of its own."""
    text = (written(machine, "sums", URL) / "locations.conf").read_text()
    found = {
        name: set(re.findall(r"limit_req zone=(\w+) ", part))
        for name, part in re.findall(r"^location (.*?) \{(.*?)^\}", text, re.M | re.S)
    }
    own = {"bsched_client_calls", "bsched_site_client_calls"}
    assert {name.rpartition("/")[2] for name, zones in found.items() if zones & own} == {"cgi", "large_call"}
    assert found["= /project/cgi"] == found["= /project/large_call"] == own


@pytest.mark.parametrize("url, is_strict", [(URL, True), ("https://sums.example:8443/", False)])
def test_browsers_use_tls_alone_where_it_is_at_its_usual_port(
    machine: Machine, url: str, is_strict: bool
) -> None:
    """Somebody between a browser and the site could lead it to a copy without TLS."""
    site = (written(machine, "sums", url) / "site.conf").read_text()
    assert ('add_header Strict-Transport-Security "max-age=31536000" always;' in site) == is_strict
    assert "includeSubDomains" not in site


# ---- The largest upload


@pytest.mark.parametrize(
    "lines, most",
    [
        (None, 100_008_192),  # as bsched-project makes the file
        ("[uploads]\nmost_result_bytes = 2_000_000 # of a result", 2_008_192),
        ("[ uploads ]\n  most_result_bytes=2000000", 2_008_192),
        ('[uploads]\nfolder = "uploads"', 1_000_008_192),
        ("# most_result_bytes = 5", 16_777_216),
        # all that TOML allows
        ("[uploads]\nmost_result_bytes = 0x100", 8_448),
        ('uploads = { folder = "u", most_bytes = 1000000000, most_result_bytes = 50_000_000 }', 50_008_192),
        ('uploads.most_result_bytes = 50_000_000\nuploads.folder = "u"', 50_008_192),
        ("[uploads]\n'most_result_bytes' = 50_000_000", 50_008_192),
        ('[accounts]\nterms = """\n[uploads]\nmost_result_bytes = 1\n"""', 16_777_216),
        ('[uploads]\nmost_result_bytes = "5"', None),
        ("[uploads]\nmost_result_bytes = 0", None),
    ],
)
def test_the_largest_upload(machine: Machine, lines: str | None, most: int | None) -> None:
    assert machine.make("--url", URL, "sums").returncode == 0
    settings = machine.projects / "sums" / "bridge" / "bridge.toml"
    if lines is not None:
        settings.write_text(f'url = "{URL}"\n{lines}\n')
    completed = machine.make("nginx", "sums")
    if most is None:
        assert completed.returncode == 1 and "line 3: most_result_bytes is not" in completed.stderr
        return
    assert (completed.returncode, completed.stderr) == (0, "")
    locations = (machine.folder / "projects-nginx" / "sums" / "locations.conf").read_text()
    uploads = [part for part in locations.split("\nlocation ") if "upload" in part.partition("{")[0]]
    assert sum(f"client_max_body_size {most};" in part for part in uploads) == 3


# ---- With nginx


class Bridge(BaseHTTPRequestHandler):
    """Stands for a bridge. The account of an upload is the first part of the file's name, and a good token is
    `good`.
    """

    protocol_version = "HTTP/1.1"
    takes_plain_urls = True
    posts: list[str] = []  # the lengths of the messages with bodies that began

    def do_GET(self) -> None:
        """Answers the question of nginx about a URL, and all else."""
        if self.path != "/project/upload_check":
            return self._answer(200, "page")
        assert self.headers["Content-Length"] is None
        _, _, path = self.headers["X-Upload-URL"].partition("/file_upload_handler")
        name, _, token = path[1:].partition("/")
        is_good = token == "good" or (path == "" and Bridge.takes_plain_urls)
        self._answer(200 if is_good else 403, "", name.partition("_")[0])

    def do_POST(self) -> None:
        """Reads the body of a message, and answers."""
        Bridge.posts.append(self.headers["Content-Length"])
        length = int(self.headers["Content-Length"])
        assert len(self.rfile.read(length)) == length
        self._answer(200, "read")

    def _answer(self, status: int, text: str, account: str = "") -> None:
        """Sends an answer."""
        self.send_response(status)
        self.send_header("Content-Length", str(len(text)))
        self.send_header("X-Upload-Account", account)
        self.end_headers()
        self.wfile.write(text.encode())

    def log_message(self, *_args: object) -> None:
        """Prints nothing."""


@contextmanager
def bridge() -> Iterator[int]:
    """Yields the port of a bridge."""
    server = ThreadingHTTPServer(("127.0.0.1", 0), Bridge)
    server.daemon_threads = True
    thread = threading.Thread(target=server.serve_forever, daemon=True)
    thread.start()
    try:
        yield server.server_port
    finally:
        server.shutdown()
        thread.join(10)
        server.server_close()


@dataclass(frozen=True)
class Sent:
    """A message of an address. By default it is an upload of ann's, with a good token."""

    address: str
    path: str = "/project/file_upload_handler/ann_0_0/good"
    length: int = 20
    fields: dict[str, str] = field(default_factory=dict)


@dataclass(frozen=True)
class Site:
    """A project at nginx. A field of a message says from which address it comes."""

    port: int
    folder: Path

    def connection(self) -> http.client.HTTPSConnection:
        """Returns a new connection."""
        context = ssl.create_default_context()
        context.check_hostname, context.verify_mode = False, ssl.CERT_NONE
        return http.client.HTTPSConnection("127.0.0.1", self.port, context=context, timeout=120)

    def asked(self, addresses: list[str]) -> Counter[int]:
        """Asks for a page from each address, one after the other. Returns how often each status came."""
        statuses = Counter[int]()
        connection = self.connection()
        for address in addresses:
            connection.request(
                "GET", "/project/status", headers={"Host": "sums.example", "X-Address": address}
            )
            response = connection.getresponse()
            response.read()
            statuses[response.status] += 1
        connection.close()
        return statuses

    def called(self, addresses: list[str]) -> Counter[int]:
        """Sends a call from each address, one after the other. Returns how often each status came."""
        statuses = Counter[int]()
        connection = self.connection()
        for address in addresses:
            connection.request(
                "POST", "/project/cgi", b"call", headers={"Host": "sums.example", "X-Address": address}
            )
            response = connection.getresponse()
            response.read()
            statuses[response.status] += 1
        connection.close()
        return statuses

    def begun(self, sent: Sent, body: bytes) -> http.client.HTTPSConnection:
        """Sends a message, maybe only a part of its body. Returns the connection."""
        connection = self.connection()
        connection.putrequest("POST", sent.path, skip_host=True)
        fields = {"Host": "sums.example", "X-Address": sent.address, "Content-Length": str(sent.length)}
        for name, value in (fields | sent.fields).items():
            connection.putheader(name, value)
        connection.endheaders(body)
        return connection

    def answered(self, sent: Sent) -> tuple[int, str]:
        """Sends a whole message, and returns the status and the body of the answer."""
        connection = self.begun(sent, bytes(sent.length))
        try:
            response = connection.getresponse()
            return response.status, response.read().decode()
        finally:
            connection.close()

    def status(self, sent: Sent, body: bytes, seconds: float = 60) -> int:
        """Sends a message with a part of its body, and returns its status within so many seconds."""
        connection = self.begun(sent, body)
        try:
            return status_of(connection, seconds)
        finally:
            connection.close()

    def bodies(self) -> list[Path]:
        """Returns the bodies that nginx has on the disk."""
        return [path for path in (self.folder / "log" / "client_body").rglob("*") if path.is_file()]


def status_of(connection: http.client.HTTPSConnection, seconds: float) -> int:
    """Returns the status of an answer that comes within so many seconds. One that comes later is not lost."""
    connection.sock.settimeout(seconds)
    try:
        return connection.getresponse().status
    except TimeoutError:
        return NO_ANSWER


@contextmanager
def running(tmp_path_factory: pytest.TempPathFactory, second: str) -> Iterator[Site]:
    """Runs nginx with the files of a project. A body may stay away for a minute: a busy machine is slow. What
    an address may ask in a second, it may ask in the time that is named.
    """
    if NGINX is None:
        pytest.skip("nginx is not installed")
    machine = Machine(tmp_path_factory.mktemp("projects"))
    files = written(machine, "sums", URL)
    folder, port, tls_port = tmp_path_factory.mktemp("nginx"), free_port(), free_port()
    limits = files / "limits.conf"
    text = re.sub(r"(rate=\d+r)/s;", rf"\1/{second};", limits.read_text())
    limits.write_text(f"{text}set_real_ip_from 127.0.0.1;\nreal_ip_header X-Address;\n")
    locations = files / "locations.conf"
    locations.write_text(
        locations.read_text().replace("client_body_timeout 10s;", "client_body_timeout 60s;")
    )
    paths = [files / "limits.conf", locations, files / "site.conf"]
    with bridge() as own:
        with served(folder, paths, {80: port, 443: tls_port, bridge_port(machine, "sums"): own}):
            yield Site(tls_port, folder)


@pytest.fixture(scope="module")
def site(tmp_path_factory: pytest.TempPathFactory) -> Iterator[Site]:
    """A project at nginx."""
    with running(tmp_path_factory, "s") as made:
        yield made


@pytest.fixture(scope="module")
def strict_site(tmp_path_factory: pytest.TempPathFactory) -> Iterator[Site]:
    """One at which also a slow machine asks too often."""
    with running(tmp_path_factory, "m") as made:
        yield made


def addresses_of(network: ipaddress.IPv6Network, count: int) -> list[str]:
    """Returns addresses of a network, among them some with zeros and line ends."""
    return [str(network[(number << 40) + 10]) for number in range(count)]


def networks_of(first: str, count: int) -> list[str]:
    """Returns an address of each of some networks of 64 bits that follow one another."""
    return [str(ipaddress.IPv6Address(first) + (number << 64)) for number in range(count)]


# Who asks, and whether nginx takes them for one. No address is in two of them: nginx still counts what came a
# moment before.
ASKING = {
    "one address asks without end": (["192.0.2.200"] * 100, True),
    "a hundred volunteers": ([f"192.0.2.{number}" for number in range(100)], False),
    "one IPv6 user takes another address of his /64 each time": (addresses_of(NETWORK, 100), True),
    "fifty IPv6 volunteers of a provider": (networks_of("2001:db8:1::1", 50), False),
    "one customer takes another /64 of his /48 each time": (networks_of("2001:db8:2::1", 400), True),
    "one address is written as IPv6": (["::ffff:192.0.2.200"] * 100, True),
    "a hundred volunteers, written as IPv6": ([f"::ffff:192.0.2.{number}" for number in range(100)], False),
}


@pytest.mark.parametrize("who", ASKING)
def test_whom_an_address_counts_as(strict_site: Site, who: str) -> None:
    addresses, is_one = ASKING[who]
    statuses = strict_site.asked(addresses)
    if is_one:
        assert statuses[REFUSED] > 0 and statuses[PASSED] > BURST
    else:
        assert statuses == {PASSED: len(addresses)}


# Who sends calls, and whether nginx takes them for one. No address is in two of them.
CALLING_OFTEN = {
    "forty computers of a department, which share an address": (["192.0.2.210"] * CALL_BURST, False),
    "one address calls without end": (["192.0.2.211"] * 120, True),
    "one IPv6 user takes another address of his /64 each time": (addresses_of(CALLING_NETWORK, 120), True),
    "fifty IPv6 volunteers of a provider": (networks_of("2001:db8:3::1", 50), False),
    "one customer takes another /64 of his /48 each time": (networks_of("2001:db8:4::1", 400), True),
}


@pytest.mark.parametrize("who", CALLING_OFTEN)
def test_who_calls_too_often(strict_site: Site, who: str) -> None:
    addresses, is_too_often = CALLING_OFTEN[who]
    statuses = strict_site.called(addresses)
    if is_too_often:
        assert statuses[REFUSED] > 0 and statuses[PASSED] > CALL_BURST
    else:
        assert statuses == {PASSED: len(addresses)}


def test_who_calls_too_often_still_reads_pages(strict_site: Site) -> None:
    """Nor do those who read many pages take the calls of computers that share the address."""
    calling, reading = "192.0.2.212", "192.0.2.213"
    assert strict_site.called([calling] * 120)[REFUSED] > 0
    assert strict_site.asked([calling] * BURST) == {PASSED: BURST}
    assert strict_site.asked([reading] * 100)[REFUSED] > 0
    assert strict_site.called([reading] * CALL_BURST) == {PASSED: CALL_BURST}


@contextmanager
def begun(site: Site, messages: list[Sent], refused: int) -> Iterator[Counter[int]]:
    """Begins messages, whose bodies don't come to their end. Yields how many have which status, a second
    after so many have an answer, which may take long on a busy machine. The connections stay open.
    """
    answered: list[int] = []
    is_over = threading.Event()

    def begin(sent: Sent) -> tuple[int, http.client.HTTPSConnection]:
        connection = site.begun(sent, bytes(sent.length // 10))
        status = NO_ANSWER
        while status == NO_ANSWER and not is_over.is_set():
            status = status_of(connection, 0.2)
        if status != NO_ANSWER:
            answered.append(status)
        return status, connection

    with ThreadPoolExecutor(len(messages)) as pool:
        started = [pool.submit(begin, sent) for sent in messages]
        ends = time.monotonic() + 40  # nginx waits for a minute for the rest of a body
        while len(answered) < refused and time.monotonic() < ends:
            time.sleep(0.05)
        time.sleep(1)
        is_over.set()
    found = [one.result() for one in started]
    try:
        yield Counter(status for status, _ in found)
    finally:
        for _, connection in found:
            connection.close()


def in_the_end(site: Site, sent: Sent) -> int:
    """Returns the status of a message, once nginx has noticed that others broke off."""
    ends = time.monotonic() + 60
    while True:
        status = site.status(sent, bytes(sent.length))
        if status != REFUSED or time.monotonic() > ends:
            return status
        time.sleep(0.05)


def members(count: int, first: int = 0) -> list[Sent]:
    """Returns an upload of each of some accounts, each from an address of its own."""
    numbers = range(first, first + count)
    return [upload_of(f"member{one}", f"198.51.{one // 100}.{one % 100}") for one in numbers]


def upload_of(account: str, address: str) -> Sent:
    """Returns an upload of an account from an address."""
    return Sent(address, f"/project/file_upload_handler/{account}_0/good", 10**6)


# Who sends uploads whose bodies don't come: the messages, and how many of them have a place then.
TAKING = {
    "one address": ([upload_of(f"m{number}", "192.0.2.7") for number in range(12)], MOST_OF_ADDRESS),
    "one account from many addresses": (
        [upload_of("mallory", f"192.0.2.{number}") for number in range(12)],
        MOST_OF_ACCOUNT,
    ),
    "one IPv6 user from his /64": (
        [upload_of(f"m{number}", address) for number, address in enumerate(addresses_of(NETWORK, 12))],
        MOST_OF_ADDRESS,
    ),
    "one customer from the networks of his /48": (
        [upload_of(f"m{number}", one) for number, one in enumerate(networks_of("2001:db8:7::1", 20))],
        MOST_OF_SITE,
    ),
    "strangers without a token, from four addresses": (
        [
            Sent(f"192.0.2.{number % 4}", "/project/file_upload_handler/a_0/bad", 10**6)
            for number in range(32)
        ],
        0,
    ),
    "strangers with a URL of an older bridge": (
        [Sent(f"192.0.2.{number}", "/project/file_upload_handler", 10**6) for number in range(8)],
        MOST_PLAIN,
    ),
}


@pytest.mark.parametrize("who", TAKING)
def test_nobody_takes_all_places_of_uploads(site: Site, who: str) -> None:
    """While the bodies don't come, honest members upload, and their answers come."""
    messages, places = TAKING[who]
    with begun(site, messages, len(messages) - places) as statuses:
        assert statuses[NO_ANSWER] == places
        assert len(site.bodies()) <= places
        honest = [
            site.answered(Sent(f"203.0.113.{one}", f"/project/file_upload_handler/h{one}_0/good"))
            for one in range(20)
        ]
        assert honest == [(PASSED, "read")] * 20
        assert site.asked(["203.0.113.99"]) == {PASSED: 1}  # other messages have limits of their own
    assert in_the_end(site, messages[0]) == PASSED


def test_all_places_of_uploads(site: Site) -> None:
    """What nginx writes to the disk at a time is bounded."""
    with begun(site, members(MOST_OF_ALL + 6), 6) as statuses:
        assert statuses == {NO_ANSWER: MOST_OF_ALL, REFUSED: 6}
    assert in_the_end(site, members(1, 90)[0]) == PASSED


# Uploads that are refused for good, by what their URL has. The client gives such a file up.
REFUSED_URLS = {
    "a forged token": "/project/file_upload_handler/ann_0_0/bad",
    "no token": "/project/file_upload_handler/ann_0_0",
    "no name": "/project/file_upload_handler/",
    "a question after it": "/project/file_upload_handler/ann_0_0/good?x",
    "another way to write it": "/project/x/../file_upload_handler/ann_0_0/bad",
}


@pytest.mark.parametrize("what", REFUSED_URLS)
@pytest.mark.parametrize("length", [20, 3_000_000])
def test_an_upload_that_is_refused_reads_so(site: Site, what: str, length: int) -> None:
    """Status -1 comes also to a client that sends its whole body first, and nothing is on the disk."""
    sent = Sent("192.0.2.77", REFUSED_URLS[what], length)
    assert site.answered(sent) == (PASSED, NEVER)
    assert site.bodies() == []


def test_a_large_upload_with_a_good_token(site: Site) -> None:
    """nginx asks about it although it has more bytes than other messages may have."""
    assert site.answered(Sent("192.0.2.76", length=3_000_000)) == (PASSED, "read")


def test_urls_of_an_older_bridge_until_its_last_job_ended(
    site: Site, monkeypatch: pytest.MonkeyPatch
) -> None:
    plain = Sent("192.0.2.78", "/project/file_upload_handler")
    assert site.answered(plain) == (PASSED, "read")
    monkeypatch.setattr(Bridge, "takes_plain_urls", False)
    assert site.answered(plain) == (PASSED, NEVER)


def test_nobody_asks_about_uploads_by_himself(site: Site) -> None:
    """The bridge would believe the field with the URL."""
    sent = Sent("192.0.2.79", "/project/upload_check", 0, {"X-Upload-URL": "/project/file_upload_handler"})
    assert site.answered(sent)[0] == 404


def test_an_upload_that_is_too_large(site: Site) -> None:
    sent = Sent("192.0.2.80", length=100_008_193)
    assert site.status(sent, b"") == TOO_LARGE
    assert site.status(Sent("192.0.2.80", length=100_008_192), b"", seconds=4) == NO_ANSWER


def call_of(address: str, length: int) -> Sent:
    """Returns a call of a length."""
    return Sent(address, "/project/cgi", length)


# Who sends calls whose bodies don't come: the messages, and how many of them have a place then.
CALLING = {
    "one address, large ones": ([call_of("192.0.2.90", 16_000_000) for _ in range(6)], LARGE_OF_ADDRESS),
    "one customer from the networks of his /48, large ones": (
        [call_of(one, LARGE) for one in networks_of("2001:db8:9::1", 8)],
        LARGE_OF_SITE,
    ),
    "many addresses, large ones": (
        [call_of(f"198.51.200.{number}", 1_000_000) for number in range(MOST_LARGE + 4)],
        MOST_LARGE,
    ),
    "one address, small ones": ([call_of("192.0.2.91", LARGE - 1) for _ in range(12)], MOST_OF_ADDRESS),
}


@pytest.mark.parametrize("who", CALLING)
def test_nobody_fills_the_disk_with_calls(site: Site, who: str) -> None:
    """No call is on the disk of nginx, and small ones of others are answered meanwhile."""
    messages, places = CALLING[who]
    with begun(site, messages, len(messages) - places) as statuses:
        assert statuses == {NO_ANSWER: places, REFUSED: len(messages) - places}
        assert site.bodies() == []
        calls = [site.answered(call_of(f"203.0.113.{100 + one}", 50_000)) for one in range(10)]
        assert calls == [(PASSED, "read")] * 10
    assert in_the_end(site, messages[0]) == PASSED


@pytest.mark.parametrize("path", ["cgi", "status", "create_account.php", "download/sum_1", "picture/a-b.png"])
def test_a_body_says_its_length(site: Site, path: str) -> None:
    """nginx would write a body in chunks to the disk."""
    connection = site.connection()
    connection.putrequest("POST", f"/project/{path}", skip_host=True)
    for name, value in (("Host", "sums.example"), ("X-Address", "192.0.2.92")):
        connection.putheader(name, value)
    connection.putheader("Transfer-Encoding", "chunked")
    connection.endheaders(b"1\r\nh\r\n" * 20_000)
    assert connection.getresponse().status == LENGTH_REQUIRED
    assert site.bodies() == []
    connection.close()


def test_a_call_without_a_length(site: Site) -> None:
    connection = site.connection()
    connection.putrequest("POST", "/project/cgi", skip_host=True)
    connection.putheader("Host", "sums.example")
    connection.endheaders()
    assert connection.getresponse().status == LENGTH_REQUIRED
    connection.close()


def test_a_length_with_zeros_is_no_large_one(site: Site) -> None:
    """The bridge has the whole body of a small call before it reads it."""
    fields = {"Content-Length": "00000000123"}
    assert site.answered(Sent("192.0.2.95", "/project/cgi", 123, fields)) == (PASSED, "read")
    Bridge.posts.clear()
    small = site.begun(Sent("192.0.2.95", "/project/cgi", 123, fields), bytes(120))
    large = site.begun(Sent("192.0.2.95", "/project/cgi", LARGE), bytes(120))
    wait_until(lambda: Bridge.posts == [str(LARGE)])
    for connection in (small, large):
        connection.close()


@pytest.mark.parametrize("path", ["status", "account", "create_account.php", "download/sum_1"])
def test_only_calls_have_large_bodies(site: Site, path: str) -> None:
    """What else is posted is a form of at most 16 kB."""
    assert site.status(Sent("192.0.2.93", f"/project/{path}", 65_537), b"") == TOO_LARGE
    assert site.answered(Sent("192.0.2.93", f"/project/{path}", 65_536)) == (PASSED, "read")
    assert site.bodies() == []


def test_refused_messages_leave_nothing_in_the_logs(strict_site: Site) -> None:
    site = strict_site
    before = {path: path.stat().st_size for path in (site.folder / "log").iterdir() if path.is_file()}
    statuses = site.asked(["192.0.2.94"] * 300)
    assert statuses[REFUSED] > 200
    lines = sum(
        path.read_bytes()[before.get(path, 0) :].count(b"\n")
        for path in (site.folder / "log").iterdir()
        if path.is_file()
    )
    assert lines <= statuses[PASSED]
