"""BOINC's Manager on a screen of its own, with a mouse and a keyboard.

The places are those of the Manager 7.20.5 of Debian 12 on a screen without a window manager. They are counted
from the upper left corner of its wizard.
"""
import mmap
import os
import re
import struct
import subprocess
import time
from pathlib import Path

from .programs import Client, Program, TrialFault

DISPLAY, SCREEN_PORT = ":97", 6097
WIZARD_SIZE = (610, 479)
STILL_SECONDS, MOST_SECONDS = 1.0, 30.0
NEXT, YES_ANYWAY = (462, 452), (439, 270)
URL_FIELD, AGREE, NEW_USER, EXISTING_USER = (349, 355), (27, 355), (32, 85), (308, 85)
EMAIL, PASSWORD, CONFIRM = (221, 149), (221, 184), (221, 221)
# the cursor in a text field does not blink, so a page that is ready does not change
GTK_SETTINGS = "[Settings]\ngtk-cursor-blink=0\ngtk-enable-animations=0\n"


class Screen(Program):
    """A virtual screen."""

    def __init__(self, folder: Path):
        words = ["Xvfb", DISPLAY, "-screen", "0", "1024x768x24", "-fbdir", str(folder)]
        super().__init__("screen", [*words, "-noreset", "-listen", "tcp", "-ac"], folder, SCREEN_PORT)

    def kill(self) -> None:
        """Ends the screen, and gives it time to remove its lock."""
        if self.process is not None and self.process.poll() is None:
            self.process.terminate()
            try:
                self.process.wait(10)
            except subprocess.TimeoutExpired:
                super().kill()

    def picture(self) -> tuple[int, int, bytes]:
        """Returns what is on the screen: width, height, and four bytes for each point (the format of xwd)."""
        with (self.folder / "Xvfb_screen0").open("rb") as file:
            with mmap.mmap(file.fileno(), 0, access=mmap.ACCESS_READ) as shown:
                head = struct.unpack(">25I", shown[:100])
                size, width, height, line, colours = head[0], head[4], head[5], head[12], head[19]
                start = size + 12 * colours
                return width, height, shown[start:][: line * height]

    def keep(self, name: str) -> None:
        """Saves what is on the screen as a picture."""
        width, height, points = self.picture()
        colours = bytearray(3 * width * height)
        for place, source in enumerate((2, 1, 0)):
            colours[place::3] = points[source::4]
        (self.folder / f"{name}.ppm").write_bytes(b"P6 %d %d 255\n" % (width, height) + colours)

    def until_still(self) -> None:
        """Waits until nothing has changed for a while."""
        ends, since, last = time.monotonic() + MOST_SECONDS, time.monotonic(), self.picture()
        while time.monotonic() - since < STILL_SECONDS:
            if time.monotonic() > ends:
                raise TrialFault("the screen is never still")
            time.sleep(0.1)
            if (now := self.picture()) != last:
                since, last = time.monotonic(), now


class Manager(Program):
    """The Manager of a client."""

    def __init__(self, client: Client, screen: Screen, folder: Path):
        self.home = folder / f"{client.name}_home"
        (self.home / ".config" / "gtk-3.0").mkdir(parents=True)
        (self.home / ".config" / "gtk-3.0" / "settings.ini").write_text(GTK_SETTINGS)
        self.opened = self.home / "opened"
        browser = self.home / "xdg-open"  # with this the Manager opens pages
        browser.write_text(f'#!/bin/sh\necho "$1" >> {self.opened}\n')
        browser.chmod(0o755)
        words = ["boincmgr", "-m", "-nd", "-n", "127.0.0.1", "-g", str(client.port), "-d", str(client.home)]
        environment = {
            "HOME": str(self.home),
            "DISPLAY": DISPLAY,
            "LANG": "C.UTF-8",
            "BROWSER": str(browser),
            "PATH": f"{self.home}:{os.environ['PATH']}",
            "XDG_CONFIG_HOME": str(self.home / ".config"),
        }
        super().__init__(f"{client.name}_manager", words, folder, SCREEN_PORT, environment)
        self.client, self.screen = client, screen

    def start(self) -> None:
        """Starts the Manager, and waits for the wizard that it shows without a project."""
        password = (self.client.home / "gui_rpc_auth.cfg").read_text().strip()
        self.words = [*self.words[:9], "-p", password]
        super().start()
        ends = time.monotonic() + MOST_SECONDS
        while (corner := self._wizard()) is None:
            if time.monotonic() > ends:
                raise TrialFault(f"{self.name} shows no wizard")
            time.sleep(0.3)
        self.corner = corner
        self.screen.until_still()

    def _wizard(self) -> tuple[int, int] | None:
        """Returns the corner of the wizard, or None if it does not show yet."""
        for window in self._do("search", "--onlyvisible", "--name", "BOINC Manager").split():
            output = self._do("getwindowgeometry", window)
            place, size = re.search(r"Position: (\d+),(\d+)", output), re.search(
                r"Geometry: (\d+)x(\d+)", output
            )
            if place and size and (int(size[1]), int(size[2])) == WIZARD_SIZE:
                return int(place[1]), int(place[2])
        return None

    def _do(self, *words: str) -> str:
        """Runs xdotool, and returns what it prints."""
        return subprocess.run(
            ["xdotool", *words], env=self.environment, capture_output=True, text=True, timeout=30
        ).stdout

    def click(self, place: tuple[int, int]) -> None:
        """Clicks at a place of the wizard."""
        x, y = self.corner[0] + place[0], self.corner[1] + place[1]
        self._do("mousemove", str(x), str(y), "click", "1")
        self.screen.until_still()

    def write(self, place: tuple[int, int], text: str) -> None:
        """Replaces the text in a field."""
        self.click(place)
        self._do("key", "ctrl+a")
        self._do("type", "--delay", "20", text)
        self.screen.until_still()

    def page(self, number: int, what: str) -> None:
        """Saves a picture of a page of the wizard."""
        self.screen.keep(f"{self.client.name}_{number}_{what}")

    # ---- The wizard

    def to_the_account(self) -> None:
        """Goes from the URL to the page that asks for an account. The project has terms."""
        self.write(URL_FIELD, self.client.url)
        self.page(1, "url")
        self.click(NEXT)
        self.page(2, "project")
        self.click(YES_ANYWAY)  # the project is in no list of projects
        self.click(AGREE)
        self.page(3, "terms")
        self.click(NEXT)

    def create_account(self, email: str, password: str) -> None:
        """Makes an account."""
        self.to_the_account()
        for place, text in ((EMAIL, email), (PASSWORD, password), (CONFIRM, password)):
            self.write(place, text)
        self.finish("account")

    def look_up(self, email: str, password: str) -> None:
        """Uses an existing account."""
        self.to_the_account()
        self.click(EXISTING_USER)
        for place, text in ((EMAIL, email), (PASSWORD, password)):
            self.write(place, text)
        self.finish("account")

    def show_notices(self) -> None:
        """Shows the list of notices, by the key for the advanced view, which begins with it."""
        self._do("search", "--onlyvisible", "--name", "BOINC", "windowfocus", "key", "ctrl+shift+a")
        time.sleep(STILL_SECONDS)
        self.screen.until_still()

    def finish(self, what: str) -> None:
        """Sends the page of the account, and ends the wizard."""
        self.page(4, what)
        self.click(NEXT)
        ends = time.monotonic() + MOST_SECONDS
        while not list(self.client.home.glob("account_*.xml")):
            if time.monotonic() > ends:
                self.page(5, "no_account")
                raise TrialFault(f"{self.name} added no project")
            time.sleep(0.5)
        self.screen.until_still()
        self.page(5, "added")
        self.click(NEXT)  # the button's label is Finish here
