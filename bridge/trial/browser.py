"""A browser of a trial: Chromium without a window, which Selenium drives.

It looks at what a volunteer meets on a page: the texts, their colours, the labels of fields, and whether all
of it fits on the screen.
"""
import base64
import json
from collections.abc import Iterator
from contextlib import contextmanager
from dataclasses import dataclass
from pathlib import Path
from typing import Any

from selenium import webdriver
from selenium.common.exceptions import WebDriverException
from selenium.webdriver.chrome.service import Service
from selenium.webdriver.common.by import By
from selenium.webdriver.remote.webelement import WebElement
from selenium.webdriver.support.expected_conditions import staleness_of
from selenium.webdriver.support.wait import WebDriverWait

CHROMIUM, DRIVER = "/usr/bin/chromium", "/usr/bin/chromedriver"
LOAD_SECONDS = 30
HEIGHT, MOST_HEIGHT = 900, 6000  # of the window, and of a picture
LEAST_CONTRAST = 4.5  # of a text (WCAG 2.1, level AA)
# Returns what is wrong with the page, a text for each fault. The arguments are the least contrast of a text.
AUDIT = """
const least = arguments[0], faults = [];
const say = (what, element) => faults.push(what + ': ' + element.outerHTML.slice(0, 120));
const parts = colour => colour.match(/[0-9.]+/g).map(Number);
const luminance = ([red, green, blue]) => {
  const linear = [red, green, blue].map(part => part / 255)
    .map(part => part <= 0.04045 ? part / 12.92 : ((part + 0.055) / 1.055) ** 2.4);
  return 0.2126 * linear[0] + 0.7152 * linear[1] + 0.0722 * linear[2];
};
const contrast = (one, other) => {
  const [low, high] = [luminance(one), luminance(other)].sort((a, b) => a - b);
  return (high + 0.05) / (low + 0.05);
};
const behind = element => {
  for (let at = element; at; at = at.parentElement) {
    const colour = parts(getComputedStyle(at).backgroundColor);
    if (colour.length < 4 || colour[3] === 1) return colour;
    if (colour[3] !== 0) say('a background that shines through', at);
  }
  say('no background', element);
  return [255, 255, 255];
};
if (!document.documentElement.lang) faults.push('the page has no language');
if (!document.title) faults.push('the page has no title');
if (document.querySelectorAll('h1').length !== 1) faults.push('the page has not one h1');
if (document.querySelectorAll('main').length !== 1) faults.push('the page has not one main part');
let level = 0;
for (const heading of document.querySelectorAll('h1, h2, h3, h4, h5, h6')) {
  const next = Number(heading.tagName[1]);
  if (next > level + 1) say('a level of headings is left out', heading);
  if (!heading.textContent.trim()) say('an empty heading', heading);
  level = next;
}
for (const field of document.querySelectorAll('input:not([type=hidden]), select, textarea')) {
  const labels = [...field.labels].filter(label => label.textContent.trim());
  if (!labels.length) say('a field without a label', field);
}
for (const one of document.querySelectorAll('button, a')) {
  if (!one.textContent.trim()) say('a button or link without a text', one);
}
for (const image of document.querySelectorAll('img')) {
  if (!image.alt.trim()) say('a picture without a text', image);
  if (image.complete && !image.naturalWidth) say('a picture that is not shown', image);
}
for (const image of document.querySelectorAll('svg')) {
  const isHidden = image.getAttribute('aria-hidden') === 'true';
  if (!isHidden && !image.getAttribute('aria-label')) say('a drawing without a text', image);
}
for (const table of document.querySelectorAll('table')) {
  if (!table.querySelector('th[scope=col]')) say('a table without heads', table);
}
const ids = [...document.querySelectorAll('[id]')].map(one => one.id);
for (const one of document.querySelectorAll('[aria-describedby]')) {
  for (const id of one.getAttribute('aria-describedby').split(' ')) {
    if (!ids.includes(id)) say('a description that is not there', one);
  }
}
const texts = document.createTreeWalker(document.body, NodeFilter.SHOW_TEXT);
let worst = 21;
while (texts.nextNode()) {
  const element = texts.currentNode.parentElement;
  if (!texts.currentNode.textContent.trim() || element.closest('svg title')) continue;
  const box = element.getBoundingClientRect();
  if (!box.width || !box.height) continue;
  const style = getComputedStyle(element), drawing = element.closest('svg');
  const colour = parts(drawing ? style.fill : style.color);
  const shape = drawing && drawing.querySelector('circle, rect');
  const ground = shape ? parts(getComputedStyle(shape).fill) : behind(element);
  const found = contrast(colour, ground);
  worst = Math.min(worst, found);
  if (found < least) say('a contrast of ' + found.toFixed(2), element);
}
for (const box of document.querySelectorAll('.wide')) {
  if (box.scrollWidth > box.clientWidth) say('a table that is wider than its box', box);
}
if (document.documentElement.scrollWidth > document.documentElement.clientWidth) {
  const isWide = one => one.getBoundingClientRect().right > document.documentElement.clientWidth;
  const wide = [...document.querySelectorAll('main *')].find(one => isWide(one) && !one.closest('.wide'));
  say('the page is wider than the screen', wide || document.body);
}
return {faults, worst};
"""


@dataclass(frozen=True, slots=True)
class Look:
    """How a page is looked at."""

    width: int
    scheme: str  # light or dark

    def __str__(self) -> str:
        """Returns it as a part of a file's name."""
        return f"{self.width}-{self.scheme}"


LOOKS = [Look(width, scheme) for width in (400, 1400) for scheme in ("light", "dark")]


class Browser:
    """A browser of somebody who reads a language."""

    def __init__(self, folder: Path, language: str) -> None:
        options: Any = webdriver.ChromeOptions()  # Selenium has few types
        options.binary_location = CHROMIUM
        for word in (
            "--headless=new",
            "--no-sandbox",  # the trial runs as root, in a network of its own
            "--no-first-run",
            "--disable-background-networking",
            "--disable-dev-shm-usage",
            "--hide-scrollbars",
            f"--user-data-dir={folder / f'chromium-{language}'}",
            f"--lang={language}",
        ):
            options.add_argument(word)
        options.add_experimental_option("prefs", {"intl.accept_languages": language})
        service = Service(DRIVER, log_path=str(folder / f"driver-{language}.log"))
        self.driver: Any = webdriver.Chrome(options=options, service=service)
        self.driver.set_page_load_timeout(LOAD_SECONDS)
        self.look(LOOKS[-2])

    def close(self) -> None:
        """Ends the browser."""
        self.driver.quit()

    def command(self, name: str, **values: Any) -> dict[str, Any]:
        """Runs a command of the browser's own protocol."""
        answer: dict[str, Any] = self.driver.execute_cdp_cmd(name, values)
        return answer

    # ---- Pages

    def open(self, url: str) -> None:
        """Opens a page."""
        self.driver.get(url)

    @property
    def text(self) -> str:
        """What is to be read on the page."""
        return str(self.driver.find_element(By.TAG_NAME, "body").text)

    @property
    def language(self) -> str:
        """The language of the page."""
        return self.one("html").get_attribute("lang") or ""

    def one(self, selector: str) -> WebElement:
        """Returns the first element that a selector finds."""
        found: WebElement = self.driver.find_element(By.CSS_SELECTOR, selector)
        return found

    def has(self, selector: str) -> bool:
        """Returns whether there is such an element."""
        return bool(self.driver.find_elements(By.CSS_SELECTOR, selector))

    def hidden(self, selector: str) -> int:
        """Returns how many of the elements that a selector finds are not shown."""
        found = self.driver.find_elements(By.CSS_SELECTOR, selector)
        return sum(not one.is_displayed() for one in found)

    # ---- Forms

    def fill(self, form: str, **fields: str) -> None:
        """Types into the fields of the form that has this selector."""
        for name, text in fields.items():
            field = self.one(f"{form} [name={name}]")
            field.clear()
            field.send_keys(text)

    def tick(self, form: str, name: str, is_ticked: bool) -> None:
        """Ticks a box, or not."""
        box = self.one(f"{form} [name={name}]")
        if box.is_selected() != is_ticked:
            box.click()

    def send(self, form: str, action: str | None = None) -> None:
        """Sends a form by its button, and waits for the next page."""
        button = "button" if action is None else f"button[value={action}]"
        with self.next_page():
            self.one(f"{form} {button}").click()

    @contextmanager
    def next_page(self) -> Iterator[None]:
        """Waits after something until there is another page."""
        before = self.one("html")
        yield
        # Chromium's driver may fail while one page replaces the other, so it is asked again
        wait = WebDriverWait(self.driver, LOAD_SECONDS, ignored_exceptions=[WebDriverException])
        gone: Any = staleness_of
        wait.until(gone(before))

    def forge(self, form: str, name: str, text: str) -> None:
        """Changes a hidden field of a form, as no user can."""
        self.driver.execute_script(
            "document.querySelector(arguments[0]).value = arguments[1]", f"{form} [name={name}]", text
        )

    # ---- What it looks like

    def look(self, look: Look) -> None:
        """Sets the width of the screen, and whether it is dark."""
        self.command(
            "Emulation.setDeviceMetricsOverride",
            width=look.width,
            height=HEIGHT,
            deviceScaleFactor=1,
            mobile=False,
        )
        self.command(
            "Emulation.setEmulatedMedia", features=[{"name": "prefers-color-scheme", "value": look.scheme}]
        )

    def keep(self, path: Path) -> None:
        """Saves the whole page as a picture."""
        size = self.command("Page.getLayoutMetrics")["cssContentSize"]
        height = min(size["height"], MOST_HEIGHT)
        clip = {"x": 0, "y": 0, "width": size["width"], "height": height, "scale": 1}
        taken = self.command("Page.captureScreenshot", format="png", captureBeyondViewport=True, clip=clip)
        path.write_bytes(base64.b64decode(taken["data"]))

    def faults(self) -> tuple[list[str], float]:
        """Returns what is wrong with the page, and the least contrast of its texts."""
        found = self.driver.execute_script(AUDIT, LEAST_CONTRAST)
        return [json.dumps(fault) for fault in found["faults"]], float(found["worst"])
