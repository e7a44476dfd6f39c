"""The steps of the trial of pages in a browser."""
import json
import sqlite3
import threading
import time
import urllib.request
from hashlib import md5
from html import escape
from http.server import BaseHTTPRequestHandler, ThreadingHTTPServer
from pathlib import Path
from typing import Any
from urllib.parse import urlencode

from bsched_files.plots import FORMAT
from bsched_tools.month_plots import new_plot
from messages import jobs, request

from .browser import LOOKS, Browser, Look
from .runs import URL, Run, seen, wants

OTHER_PORT = 8085
DAY = 86_400
PICTURE = """\
<svg xmlns="http://www.w3.org/2000/svg" viewBox="0 0 300 200" width="300" height="200">
<rect width="300" height="200" fill="#1d4f74"/><circle cx="220" cy="60" r="30" fill="#d9b84a"/>
<path d="M0 200 L90 90 L150 150 L200 110 L300 200 Z" fill="#2f7d4f"/></svg>
"""
WELCOME = """\
We add numbers, many of them, and look for those that nobody has added yet. Read more at
https://sums.example/about.

Each computer helps.
"""
ANN, BOB = ("ann@sums.example", "secret 1"), ("bob@sums.example", "secret 2")
COUNTS = """\
{"workunits": {"open": 1200, "done": 2999, "failed by errors": 41}, "open_workunits": {"out": 200}}
"""
NAME_FORM, TEAM_FORM = "form[action$=account_finish\\.php]", "form[action$=account_team]"
PREFERENCES_FORM, ENTRANCE_FORM = "form[action$=account_preferences]", "form:has([name=email])"
HOST = """\
<os_name>Linux Debian</os_name>
<os_version>Debian GNU/Linux 12 (bookworm) [6.1.0-18-amd64|libc 2.36]</os_version>
<p_vendor>GenuineIntel</p_vendor><p_model>Intel(R) Core(TM) i7-1185G7 @ 3.00GHz [Family 6 Model 140]</p_model>
<p_ncpus>8</p_ncpus>
"""
KINDS = {
    "project": "",
    "news": "news",
    "news-item": "news/1",
    "help": "help",
    "status": "status",
    "users": "users",
    "users-2": "users?page=2",
    "users-found": "users?name=User+00",
    "computers": "computers",
    "user": "user/1",
    "computer": "computer/{host}",
    "teams": "teams",
    "team": "team/2",
    "terms": "terms",
    "entrance": "account",
    "account": "account_finish.php?auth={key}",
    "password": "get_passwd.php",
    "deletion": "delete_account.php",
    "not-found": "nothing",
}


class Elsewhere(BaseHTTPRequestHandler):
    """A page of another site, with a form that posts to the project."""

    form = ""

    def do_GET(self) -> None:
        """Answers with the page."""
        body = f"<!DOCTYPE html><title>x</title>{self.form}".encode()
        self.send_response(200)
        self.send_header("Content-Type", "text/html; charset=utf-8")
        self.send_header("Content-Length", str(len(body)))
        self.end_headers()
        self.wfile.write(body)

    def log_message(self, *_words: object) -> None:
        """Prints nothing: no line for each message."""


def form_of(path: str, **fields: str) -> str:
    """Returns a form that posts fields to the project."""
    inputs = "".join(f'<input name="{name}" value="{escape(text)}">' for name, text in fields.items())
    return f'<form method="post" action="{URL}{path}">{inputs}<button>go</button></form>'


class BrowserTrial(Run):
    """The steps of the trial, and the programs that they work on."""

    def __init__(self, program: str, folder: Path, out: Path) -> None:
        super().__init__(program, folder)
        self.out, self.key = out, ""
        (folder / "plots").mkdir()
        (folder / "news").mkdir()
        for number, title in enumerate(("We have begun", "The second batch <is> out & about"), 1):
            (folder / "news" / f"{number}.txt").write_text(f"{title}\n2026-11-30\n\n{WELCOME}")
        files = {"welcome.txt": WELCOME, "terms.txt": "Be kind.\n", "picture.svg": PICTURE}
        for name, text in files.items():
            (folder / name).write_text(text)
        settings = folder / "bridge.toml"
        settings.write_text(
            'welcome = "welcome.txt"\ncontact = "help@sums.example"\npicture = "picture.svg"\n'
            'picture_text = "The sun above hills"\ncounts = "counts.json"\nplots = "plots"\n'
            'averages = "averages.json"\n'
            f'{settings.read_text()}terms = "terms.txt"\n'
        )
        self.browsers: dict[str, Browser] = {}
        self.elsewhere = ThreadingHTTPServer(("127.0.0.1", OTHER_PORT), Elsewhere)
        threading.Thread(target=self.elsewhere.serve_forever, daemon=True).start()

    def end(self) -> None:
        """Ends the browsers and all programs."""
        for browser in self.browsers.values():
            browser.close()
        self.elsewhere.shutdown()
        self.elsewhere.server_close()
        super().end()

    # ---- A project with volunteers

    def begin(self) -> None:
        """Makes a project with accounts, computers, results and a month of credit, and starts browsers."""
        super().begin()
        self.key, other = self.joined(*ANN), self.joined(*BOB)
        for name in ("first", "lost", "given_up", "failing", "held", "next"):
            self.give(name, 2 if name == "held" else 1)
        given = jobs(self.call(self.key, "ann-1"))
        self.call(self.key, "ann-1", listed=[], reports=[(name, "5050") for name in given[:1]])
        self.call(other, "bob-1")
        failed = [(name, "") for name in given[1:]]
        self.call(self.key, "ann-1", reports=failed, statuses=dict.fromkeys(given, 1))
        (self.folder / "counts.json").write_text(COUNTS)
        self.add_plots()
        self.bridge.kill()
        self.add_history()
        self.bridge.start()
        for language in ("en", "de"):
            self.browsers[language] = Browser(self.folder, language)

    def joined(self, email: str, password: str) -> str:
        """Makes an account as BOINC's client does, and returns its key."""
        secret = md5((password + email).encode()).hexdigest()
        query = urlencode({"email_addr": email, "passwd_hash": secret, "user_name": "x", "consent_flag": "1"})
        with urllib.request.urlopen(f"{URL}create_account.php?{query}", timeout=30) as response:
            answer: str = response.read().decode()
        wants("<authenticator>" in answer, f"an account is made: {answer}")
        return answer.partition("<authenticator>")[2].partition("<")[0]

    def call(self, key: str, cpid: str, **more: Any) -> bytes:
        """Returns the reply to a request of a computer."""
        text = request(cpid=cpid, key=key, **more).replace("</host_info>", f"{HOST}</host_info>")
        with urllib.request.urlopen(f"{URL}cgi", text.encode(), timeout=30) as response:
            reply: bytes = response.read()
        return reply

    def add_history(self) -> None:
        """Adds a hundred users, teams and a month of credit to the bridge's file."""
        now, connection = int(time.time()), sqlite3.connect(self.folder / "bridge.db")
        with connection:
            for number in range(120):
                name, credit = f"User {number:03}", 1000 * number**2
                connection.execute(
                    "INSERT INTO member (authenticator, name, is_imported, cpid, created_at, credit) "
                    "VALUES (?, ?, 1, 'c', ?, ?)",
                    (f"k{number}", name, now - number * 20 * DAY, credit),
                )
                connection.execute(
                    "INSERT INTO host (authenticator, host_cpid, hostid, user_name, user_credit, "
                    "host_credit, heard_at, about) VALUES (?, 'c', ?, ?, ?, ?, ?, "
                    "(SELECT about FROM host WHERE about IS NOT NULL LIMIT 1))",
                    (f"k{number}", 200_000 + number, name, credit, credit, now - 60 * number),
                )
                connection.execute(
                    "INSERT INTO host_file (host, file, scheduler_hostid, last_number, credit) "
                    "SELECT id, 1, ?, 1, ? FROM host WHERE hostid = ?",
                    (500 + number, credit, 200_000 + number),
                )
            connection.execute("UPDATE member SET created_at = ? WHERE id = 1", (now - 800 * DAY,))
            for day in range(30):
                at, credit = now // DAY - 30 + day, 100_000 * day + 7_000 * (day % 4)
                connection.execute("INSERT INTO member_day VALUES (1, ?, ?)", (at, credit))
                connection.execute(
                    "INSERT INTO host_day SELECT hostid, ?, ? FROM host WHERE host_cpid = 'ann-1'",
                    (at, credit),
                )
        connection.close()

    def add_plots(self) -> None:
        """Adds plots of the last month, as `bsched-tools report` draws them."""
        moments = [int(time.time()) - (30 - day) * DAY for day in range(30)]
        plots = [
            new_plot("results", "Results a day", moments, [900 + 40 * (day % 7) for day in range(30)]),
            new_plot("computers", "Active computers", moments, [100 + day for day in range(30)]),
            new_plot("credit", "Credit", moments, [10_000 + 700 * day for day in range(30)]),
        ]
        listed = [{"file": plot.file, "title": plot.title, "text": plot.text} for plot in plots]
        for plot in plots:
            (self.folder / "plots" / plot.file).write_bytes(plot.svg)
        (self.folder / "plots" / "plots.json").write_text(json.dumps({"format": FORMAT, "plots": listed}))

    @property
    def host(self) -> int:
        """The number of a computer with results."""
        connection = sqlite3.connect(f"file:{self.folder / 'bridge.db'}?mode=ro", uri=True)
        (number,) = connection.execute("SELECT hostid FROM host WHERE host_cpid = 'ann-1'").fetchone()
        connection.close()
        return int(number)

    # ---- What somebody does with forms

    def log_in(self, browser: Browser, email: str, password: str) -> str:
        """Opens an account by its e-mail address and password. Returns the address of its page."""
        browser.open(f"{URL}account")
        browser.fill(ENTRANCE_FORM, email=email, password=password)
        browser.send(ENTRANCE_FORM)
        key = browser.one(f"{NAME_FORM} [name=key]").get_attribute("value")
        return f"{URL}account_finish.php?auth={key}"

    def named(self) -> None:
        """A user finds the account, and changes its name."""
        browser = self.browsers["en"]
        browser.open(f"{URL}account")
        browser.fill(ENTRANCE_FORM, email=ANN[0], password="wrong")
        browser.send(ENTRANCE_FORM)
        fault = browser.one("[name=password]").get_attribute("aria-describedby") or "none"
        says = browser.one(f"#{fault}").text
        wants(says == "No account has this e-mail address and password.", "a wrong password is refused")
        self.log_in(browser, *ANN)
        wants(self.key in browser.text, "the page of the account shows its key")
        seen("joined: the account is found by its e-mail address and password, and not with a wrong one")
        browser.fill(NAME_FORM, name=" ")
        browser.send(NAME_FORM)
        wants("Give a name." in browser.text, "an empty name is refused")
        browser.fill(NAME_FORM, name="Zoë <b>Ångström</b>")
        browser.tick(NAME_FORM, "is_exported", True)
        browser.send(NAME_FORM)
        wants("Your changes are saved." in browser.text, "the name is saved")
        browser.open(f"{URL}users?name=zo%C3%AB")
        wants("Zoë <b>Ångström</b>" in browser.text, "the page of users shows the name as it is")
        seen("named: the new name is on the page of users")

    def teams(self) -> None:
        """Two users make, join and leave a team."""
        browser = self.browsers["en"]
        ann = self.log_in(browser, *ANN)
        browser.fill(TEAM_FORM, team="The Adders")
        browser.send(TEAM_FORM, "make")
        wants("Your team is made." in browser.text, "a team is made")
        bob = self.log_in(browser, *BOB)
        browser.fill(TEAM_FORM, team="nobody's")
        browser.send(TEAM_FORM, "join")
        wants("No team has this name or number." in browser.text, "nobody joins a team that does not exist")
        browser.fill(TEAM_FORM, team="the adders")
        browser.send(TEAM_FORM, "join")
        wants("You are in the team." in browser.text, "a team is joined")
        number = browser.one(f"{TEAM_FORM} a").get_attribute("href") or ""
        browser.open(number)
        wants("Zoë" in browser.text and "\n2\n" in browser.text, "the page of the team shows both members")
        browser.open(ann)
        member = f"{TEAM_FORM}:has([name=member])"
        browser.fill(member, member="2")
        browser.send(member, "remove")
        wants("The member is removed." in browser.text, "the founder removes a member")
        browser.open(bob)
        browser.fill(TEAM_FORM, team=number.rpartition("/")[2])
        browser.send(TEAM_FORM, "join")
        browser.send(TEAM_FORM, "leave")
        wants("You left the team." in browser.text, "a team is left")
        browser.fill(TEAM_FORM, team="Multipliers & Sons")
        browser.send(TEAM_FORM, "make")
        seen("teams: one is made, joined and left, and its founder removes a member")

    def anonymous(self) -> None:
        """A user becomes anonymous."""
        browser = self.browsers["en"]
        address = self.log_in(browser, *BOB)
        browser.fill(NAME_FORM, name="Bob Secret")
        browser.tick(NAME_FORM, "is_anonymous", True)
        browser.send(NAME_FORM)
        for path in ("user/2", "users?name=anonymous", "computers?name=anonymous", "team/2"):
            browser.open(f"{URL}{path}")
            wants("Bob" not in browser.text and "anonymous" in browser.text, f"{path} does not show the name")
        browser.open(address)
        shown = browser.one(f"{NAME_FORM} [name=name]").get_attribute("value")
        wants(shown == "Bob Secret", "its owner sees the name")
        seen("anonymous: no page shows the name of a user who chose so")

    def preferences(self) -> None:
        """A user sets preferences."""
        browser = self.browsers["en"]
        address = self.log_in(browser, *ANN)
        browser.fill(PREFERENCES_FORM, processors="0", share="50")
        browser.send(PREFERENCES_FORM, "save")
        field = browser.one(f"{PREFERENCES_FORM} [name=processors]")
        wants(field.get_attribute("aria-invalid") == "true", "a wrong number is marked")
        wants("Give a whole number from 1 to 100." in browser.text, "and the page says what is wrong")
        browser.fill(PREFERENCES_FORM, processors="75")
        browser.tick(PREFERENCES_FORM, "is_only_idle", True)
        browser.send(PREFERENCES_FORM, "save")
        browser.open(address)
        kept = [browser.one(f"[name={name}]").get_attribute("value") for name in ("share", "processors")]
        wants(kept == ["50", "75"], f"the numbers are kept: {kept}")
        wants(browser.one("[name=is_only_idle]").is_selected(), "and so is the tick")
        reply = self.call(self.key, "ann-1").decode()
        wants("<max_ncpus_pct>75</max_ncpus_pct>" in reply, "the next reply has them")
        seen("preferences: wrong ones are refused, good ones are kept, and the next reply has them")

    def forged(self) -> None:
        """Forms that no page of the project has are refused."""
        browser = self.browsers["en"]
        address = self.log_in(browser, *ANN)
        browser.forge(NAME_FORM, "key", "f" * 32)
        browser.send(NAME_FORM)
        wants("No account has this key." in browser.text, "a changed key is refused")
        browser.open(address)
        browser.driver.execute_script("document.querySelector('button[value=leave]').value = 'rule'")
        browser.send(TEAM_FORM, "rule")
        wants(browser.text == "Bad Request", "a changed action is refused")
        Elsewhere.form = form_of("account_finish.php", key=self.key, name="Stolen")
        for host in ("127.0.0.1", "localhost"):
            browser.open(f"http://{host}:{OTHER_PORT}/")
            browser.send("form")
            wants(browser.text == "Forbidden", f"a form of {host} is refused: {browser.text[:100]}")
        browser.open(address)
        wants("Stolen" not in browser.text, "a form of another site changed nothing")
        first = browser.driver.current_window_handle
        browser.send(TEAM_FORM, "leave")
        browser.fill(TEAM_FORM, team="Twice")
        browser.driver.switch_to.new_window("tab")
        browser.open(address)
        browser.fill(TEAM_FORM, team="Twice")
        browser.send(TEAM_FORM, "make")
        browser.driver.close()
        browser.driver.switch_to.window(first)
        browser.send(TEAM_FORM, "make")
        wants("Leave your team first." in browser.text, "a form that is sent again is refused")
        browser.open(f"{URL}teams?name=Twice")
        wants("in their name: 1." in browser.text, "there is one such team")
        seen("forged: a changed key, a changed action, forms of other sites and a repeated form are refused")

    def german(self) -> None:
        """A browser that asks for German gets it."""
        browser = self.browsers["de"]
        self.log_in(browser, *ANN)
        wants(browser.language == "de" and "Ihr Kontoschlüssel ist" in browser.text, "an account in German")
        browser.fill(PREFERENCES_FORM, share="10001")
        browser.send(PREFERENCES_FORM, "save")
        wants("Geben Sie eine ganze Zahl von 0 bis 10.000 ein." in browser.text, "a fault in German")
        browser.open(f"{URL}users")
        wants("Seite 1 von 2." in browser.text and "14.161" in browser.text, "a list in German")
        wants(self.browsers["en"].language == "en", "the other browser reads English")
        seen("german: pages, numbers and faults of forms")

    # ---- What pages look like

    def looked_at(self, name: str, address: str, browser: Browser, looks: list[Look]) -> float:
        """Saves pictures of a page, and checks each. Returns the least contrast of its texts."""
        browser.open(address)
        least = 21.0
        for look in looks:
            browser.look(look)
            browser.keep(self.out / f"{name}-{look}.png")
            faults, contrast = browser.faults()
            wants(not faults, f"{name} at {look}: {'; '.join(faults)}")
            least = min(least, contrast)
        return least

    def pages(self) -> None:
        """Looks at each kind of page."""
        values, least = {"host": self.host, "key": self.key}, 21.0
        for language, browser in self.browsers.items():
            for kind, path in KINDS.items():
                address = URL + path.format(**values)
                name = kind if language == "en" else f"{kind}-{language}"
                least = min(least, self.looked_at(name, address, browser, LOOKS))
            wants(browser.language == language, f"the pages are in {language}")
            browser.open(f"{URL}status")
            browser.look(LOOKS[0])
            wants(browser.has("td[data-label]"), "the status page has computers")
            wants(browser.hidden("td[data-label]") == 0, "a narrow screen shows each of their numbers")
        browser = self.browsers["en"]
        self.log_in(browser, *ANN)
        browser.fill(NAME_FORM, name=" ")
        browser.send(NAME_FORM)
        faults, _ = browser.faults()
        wants(not faults, f"a page with a fault of a form: {'; '.join(faults)}")
        settings = self.folder / "bridge.toml"
        settings.write_text(settings.read_text().partition("\n[accounts]")[0])
        self.bridge.kill()
        self.bridge.start()
        for kind, path in {"project-closed": "", "no-passwords": "get_passwd.php"}.items():
            least = min(least, self.looked_at(kind, URL + path, browser, LOOKS))
        count = len(list(self.out.glob("*.png")))
        seen(f"pages: {count} pictures in {self.out}; the least contrast of a text is {least:.2f}")

    def run(self) -> None:
        """Runs all steps."""
        for step in (
            *(self.begin, self.named, self.teams, self.anonymous, self.preferences, self.forged, self.german),
            self.pages,
        ):
            step()
