"""Tests the files for nginx that bsched-project writes: what they say, and what nginx does with them."""
import http.client
import re
import ssl
import threading
from base64 import b64encode
from collections.abc import Iterator
from contextlib import contextmanager
from http.server import BaseHTTPRequestHandler, ThreadingHTTPServer
from pathlib import Path

import pytest
from nginx_tried import NGINX, URL, bridge_port, served, written
from project_machine import Machine
from served import free_port


@pytest.fixture
def machine(tmp_path: Path) -> Machine:
    """Makes an empty folder of projects."""
    return Machine(tmp_path)


@pytest.mark.parametrize("url, port", [(URL, 443), ("https://sums.example:8443/", 8443)])
def test_the_files_of_a_project(machine: Machine, url: str, port: int) -> None:
    folder = written(machine, "sums", url)
    site, locations = (folder / "site.conf").read_text(), (folder / "locations.conf").read_text()
    assert f"listen {port} ssl;" in site and "listen 80;" in site
    assert site.count("server_name sums.example;") == 2
    has_redirect = "location = / {" in site and f"return 301 {url}get_project_config.php;" in site
    assert has_redirect == (url == URL)
    path = "/project/" if url == URL else "/"
    assert (
        f"location {path} {{" in locations
        and f"http://127.0.0.1:{bridge_port(machine, 'sums')};" in locations
    )
    assert re.findall("@[A-Z_]+@", site + locations) == []


def test_what_has_no_files(machine: Machine) -> None:
    assert machine.make("--url", "http://sums.example/", "sums").returncode == 0
    completed = machine.make("nginx", "sums")
    assert completed.returncode == 1 and "these files are for https" in completed.stderr
    assert machine.make("nginx", "others").returncode == 1
    assert machine.make("nginx", "../sums").returncode == 64
    (machine.projects / "sums" / "bridge" / "bridge.toml").write_text("name = 1\n")
    assert "bridge.toml: line 1: url is missing" in machine.make("nginx", "sums").stderr


def test_the_files_are_not_in_the_folder_of_the_bridges_user(machine: Machine, tmp_path: Path) -> None:
    """That user could put a link there, and root would follow it."""
    assert machine.make("--url", URL, "sums").returncode == 0
    victim = tmp_path / "victim"
    victim.mkdir()
    (machine.projects / "sums" / "nginx").symlink_to(victim)
    completed = machine.make("nginx", "sums")
    assert completed.returncode == 0 and list(victim.iterdir()) == []
    assert f"  cd {machine.projects}-nginx/sums\n" in completed.stdout


# ---- With nginx


class Bridge(BaseHTTPRequestHandler):
    """Stands for a bridge: answers with its name, the path, and the address that nginx gives. It gets no
    password.
    """

    def do_GET(self) -> None:
        """Answers."""
        assert self.headers["Authorization"] is None
        body = f"{self.connection.getsockname()[1]} {self.path} {self.headers['X-Real-IP']}".encode()
        self.send_response(200)
        self.send_header("content-length", str(len(body)))
        self.end_headers()
        self.wfile.write(body)

    def log_message(self, *_args: object) -> None:
        """Prints nothing."""


@contextmanager
def bridge() -> Iterator[int]:
    """Yields the port of a bridge."""
    server = ThreadingHTTPServer(("127.0.0.1", 0), Bridge)
    thread = threading.Thread(target=server.serve_forever, daemon=True)
    thread.start()
    try:
        yield server.server_port
    finally:
        server.shutdown()
        thread.join(10)
        server.server_close()


def asked(
    connection: http.client.HTTPConnection, host: str, path: str, fields: dict[str, str] | None = None
) -> tuple[int, str]:
    """Returns the status of an answer, and where it leads or what it says."""
    connection.request("GET", path, headers={"Host": host, **(fields or {})})
    response = connection.getresponse()
    body = response.read().decode()
    connection.close()
    return response.status, response.headers.get("Location") or body


@pytest.mark.skipif(NGINX is None, reason="nginx is not installed")
def test_two_projects_by_nginx(machine: Machine, tmp_path: Path) -> None:
    sums, others = written(machine, "sums", URL), written(machine, "others", "https://others.example/")
    folder, port, tls_port = tmp_path / "nginx", free_port(), free_port()
    folder.mkdir()
    files = [sums / "limits.conf", sums / "locations.conf", sums / "site.conf"]
    files += [others / "locations.conf", others / "site.conf"]
    one, other = bridge_port(machine, "sums"), bridge_port(machine, "others")
    with bridge() as first, bridge() as second:
        with served(folder, files, {80: port, 443: tls_port, one: first, other: second}):
            plain = http.client.HTTPConnection("127.0.0.1", port, timeout=120)
            # what the Manager asks if the URL was typed without a scheme, and the name alone
            assert asked(plain, "sums.example", "/project/get_project_config.php") == (
                301,
                f"{URL}get_project_config.php",
            )
            assert asked(plain, "sums.example", "/") == (301, "https://sums.example/")
            context = ssl.create_default_context()
            context.check_hostname, context.verify_mode = False, ssl.CERT_NONE
            tls = http.client.HTTPSConnection("127.0.0.1", tls_port, context=context, timeout=120)
            assert asked(tls, "sums.example", "/") == (301, URL)
            config = asked(tls, "sums.example", "/get_project_config.php")
            assert config == (301, f"{URL}get_project_config.php")
            assert asked(tls, "sums.example", "/other")[0] == 404
            for page in ("/project/status", "/project/get_passwd.php"):
                assert asked(tls, "sums.example", page) == (200, f"{first} {page} 127.0.0.1")
            assert asked(tls, "others.example", "/status") == (200, f"{second} /status 127.0.0.1")
            for path in ("board", "metrics", "%62oard", "../operator/board"):  # the operator's, for nobody
                assert asked(tls, "sums.example", f"/project/operator/{path}")[0] == 404
                assert asked(tls, "others.example", f"/operator/{path}")[0] == 404


# what a log must not have
ADDRESS, HASH, KEY = "olga@sums.example", "0123456789abcdef0123456789abcdef", "olgas-key"
QUERY = f"email_addr={ADDRESS}&passwd_hash={HASH}&account_key={KEY}"
NAMES = ["create_account", "lookup_account", "account_finish", "get_passwd", "delete_account", "am_get_info"]
SCRIPTS = [f"{name}.php" for name in NAMES]
INSIDE = ["", "account", "download/sum_1", "file_upload_handler", "operator/board", "stats/user.gz"]


@pytest.mark.skipif(NGINX is None, reason="nginx is not installed")
def test_no_log_has_an_address_a_hash_or_a_key(machine: Machine, tmp_path: Path) -> None:
    """No bridge runs, so that nginx has errors to log, too."""
    sums, others = written(machine, "sums", URL), written(machine, "others", "https://others.example/")
    folder, port, tls_port, nowhere = tmp_path / "nginx", free_port(), free_port(), free_port()
    folder.mkdir()
    files = [sums / "limits.conf", sums / "locations.conf", sums / "site.conf"]
    files += [others / "locations.conf", others / "site.conf"]
    scripts = [f"project/{name}" for name in SCRIPTS]
    outside = ["", "get_project_config.php", "other", *SCRIPTS]
    one, other = bridge_port(machine, "sums"), bridge_port(machine, "others")
    with served(folder, files, {80: port, 443: tls_port, one: nowhere, other: nowhere}):
        plain = http.client.HTTPConnection("127.0.0.1", port, timeout=120)
        for path in [*outside, ".well-known/acme-challenge/other", *scripts]:
            asked(plain, "sums.example", f"/{path}?{QUERY}")
            asked(plain, "others.example", f"/{path}?{QUERY}")
        asked(plain, "a b", f"/project/create_account.php?{QUERY}")  # no name of a host: status 400
        context = ssl.create_default_context()
        context.check_hostname, context.verify_mode = False, ssl.CERT_NONE
        tls = http.client.HTTPSConnection("127.0.0.1", tls_port, context=context, timeout=120)
        for path in [*outside, *scripts]:
            asked(tls, "sums.example", f"/{path}?{QUERY}")
        for path in SCRIPTS:
            asked(tls, "others.example", f"/{path}?{QUERY}")
        secrets = {"Cookie": f"key={KEY}", "Authorization": f"Basic {HASH}"}
        for path in INSIDE:
            tls.request("POST", f"/project/{path}", QUERY, {"Host": "sums.example", **secrets})
            tls.getresponse().read()
            tls.close()
    access, errors = (folder / "log" / "access").read_text(), (folder / "log" / "error").read_text()
    assert '"POST /project/account HTTP/1.1" 502' in access and "POST /project/account HTTP/1.1" in errors
    for secret in (ADDRESS, HASH, KEY):
        assert secret not in access and secret not in errors


def with_board(locations: Path, passwords: Path) -> None:
    """Lets the lines pass on the operator's messages, as their comment says, with a file of passwords."""
    text = locations.read_text()
    before, begin, rest = text.partition("location /project/operator/ {\n    return 404;\n")
    inside, end, after = rest.partition("}\n")
    assert begin and end
    lines = inside.replace("    # ", "    ").replace("/etc/nginx/sums.htpasswd", str(passwords))
    locations.write_text(before + begin.replace("    return 404;\n", "") + lines + end + after)


@pytest.mark.skipif(NGINX is None, reason="nginx is not installed")
def test_the_operators_board_with_a_password(machine: Machine, tmp_path: Path) -> None:
    """The bridge gets neither an address nor the password."""
    sums = written(machine, "sums", URL)
    folder, port, tls_port = tmp_path / "nginx", free_port(), free_port()
    folder.mkdir()
    with_board(sums / "locations.conf", folder / "passwords")
    (folder / "passwords").write_text("olga:{PLAIN}secret\n")
    files = [sums / "limits.conf", sums / "locations.conf", sums / "site.conf"]
    own = bridge_port(machine, "sums")
    with bridge() as first, served(folder, files, {80: port, 443: tls_port, own: first}):
        context = ssl.create_default_context()
        context.check_hostname, context.verify_mode = False, ssl.CERT_NONE
        tls = http.client.HTTPSConnection("127.0.0.1", tls_port, context=context, timeout=120)
        path = "/project/operator/board"
        assert asked(tls, "sums.example", path)[0] == 401
        wrong = {"Authorization": f"Basic {b64encode(b'olga:wrong').decode()}"}
        assert asked(tls, "sums.example", path, wrong)[0] == 401
        right = {"Authorization": f"Basic {b64encode(b'olga:secret').decode()}", "X-Real-IP": "192.0.2.1"}
        assert asked(tls, "sums.example", path, right) == (200, f"{first} {path} None")
