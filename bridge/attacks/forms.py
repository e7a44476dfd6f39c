"""Forms that pages of other sites have their visitors send, and TLS for all pages."""
import http.client
import re
import ssl
import subprocess
import threading
from collections import Counter
from pathlib import Path
from urllib.parse import urlencode

from served import free_port
from trial.behind_nginx import TEMPLATES
from trial.programs import Program, TrialFault

from .attack import through
from .sending import asked
from .target import Target, address_of

FORM = {"Content-Type": "application/x-www-form-urlencoded"}
FORMS = (
    "account",
    "account_finish.php",
    "account_preferences",
    "account_team",
    "delete_account.php",
    "get_passwd.php",
)
ELSEWHERE = (
    {"Origin": "null"},
    {"Origin": "https://elsewhere.example"},
    {"Sec-Fetch-Site": "cross-site", "Origin": "null"},
)
HOST = "sums.example"
STRICT = "max-age=31536000"
FILLED = '. "$1/library/nginx.sh"; TEMPLATES=$1 filled "$1/nginx/site.conf" trial "$2" 0 0'
MAIN = """\
daemon off;
user root;
pid {folder}/pid;
error_log {folder}/errors;
events {{ }}
http {{
    access_log off;
    client_body_temp_path {folder}/body;
    proxy_temp_path {folder}/proxy;
    include {folder}/site.conf;
}}
"""


def send_forms(target: Target, ending: threading.Event) -> str:
    """Has a browser send each form from a page of another site or without an origin, and asks nginx for pages
    by TLS.
    """
    found = Counter[int]()
    for number, fields in enumerate(ELSEWHERE):
        for place, form in enumerate(FORMS):
            body = urlencode({"email": "ann@sums.example", "password": "x", "key": "x", "action": "make"})
            address = address_of(number * len(FORMS) + place)
            status, _ = asked(target, address, "POST", f"/{form}", body, fields=FORM | fields)
            through(status != 403, f"{form} takes a form with {fields}: {status}")
            found[status] += 1
    own = {"Origin": f"http://127.0.0.1:{target.port}"}
    status, _ = asked(target, address_of(100), "POST", "/account", "key=x", fields=FORM | own)
    through(status != 200, f"the form of a page of the project has status {status}")
    statuses = strict_pages(target)
    return f"{len(ELSEWHERE)} kinds of {len(FORMS)} forms: {dict(found)}; by TLS alone: {statuses}"


def strict_pages(target: Target) -> str:
    """Has nginx serve pages by the lines for the site of a project. Each must say that browsers use TLS
    alone. Returns the statuses of the pages.
    """
    folder, port, tls_port = target.folder / "site", free_port(), free_port()
    folder.mkdir()
    make_certificate(folder)
    text = subprocess.run(
        ["bash", "-c", FILLED, "bash", str(TEMPLATES.parent), f"https://{HOST}/"],
        capture_output=True,
        text=True,
        check=True,
        timeout=60,
    ).stdout
    text = re.sub(r" *listen \[::\].*\n", "", text).replace(f"/etc/letsencrypt/live/{HOST}", str(folder))
    text = text.replace("listen 80;", f"listen {port};").replace("listen 443 ssl", f"listen {tls_port} ssl")
    page = f"location / {{ proxy_pass http://127.0.0.1:{target.port}; }} location /none {{ return 503; }}"
    text = text.replace("include snippets/bsched-trial.conf;", page)
    (folder / "site.conf").write_text(text)
    (folder / "main.conf").write_text(MAIN.format(folder=folder))
    words = ["nginx", "-p", str(folder), "-c", str(folder / "main.conf"), "-e", str(folder / "errors")]
    nginx, statuses = Program("site", words, folder, tls_port), list[str]()
    nginx.start()
    try:
        for path in ("/", "/account", "/no_such_page", "/none"):
            status, said = strict_of(tls_port, path)
            through(said != STRICT, f"{path} by TLS says {said!r} ({status})")
            statuses.append(str(status))
    finally:
        if nginx.process is not None:
            nginx.process.terminate()
            nginx.process.wait(30)
    return ", ".join(statuses)


def make_certificate(folder: Path) -> None:
    """Makes a certificate for the site."""
    words = ["openssl", "req", "-x509", "-newkey", "rsa:2048", "-nodes", "-subj", f"/CN={HOST}"]
    words += ["-keyout", str(folder / "privkey.pem"), "-out", str(folder / "fullchain.pem")]
    done = subprocess.run(words, capture_output=True, text=True, timeout=300)
    if done.returncode:
        raise TrialFault(f"openssl makes no certificate: {done.stderr}")


def strict_of(port: int, path: str) -> tuple[int, str | None]:
    """Asks for a page by TLS. Returns its status, and what it says of TLS."""
    context = ssl.create_default_context()
    context.check_hostname, context.verify_mode = False, ssl.CERT_NONE
    connection = http.client.HTTPSConnection("127.0.0.1", port, timeout=60, context=context)
    try:
        connection.request("GET", path, headers={"Host": HOST})
        response = connection.getresponse()
        response.read()
        return response.status, response.getheader("Strict-Transport-Security")
    finally:
        connection.close()
