"""Tests the tables of limits in docs/VOLUNTEERS.md: their numbers and texts are those of the code, of nginx's
lines and of the settings.
"""
import importlib
import re
from dataclasses import dataclass
from pathlib import Path

import pytest
from babel.messages.pofile import read_po  # type: ignore[import]

TOP = Path(__file__).resolve().parent.parent.parent
NGINX = "".join(
    (TOP / "packaging" / "nginx" / name).read_text() for name in ("limits.conf", "locations.conf")
)
ZONE_NUMBERS = (
    r"limit_req_zone \S+ zone={zone}:\S+ rate=(\d+)r/s;",
    r"limit_req zone={zone} burst=(\d+)",
    r"limit_conn {zone} (\d+);",
)
UNITS = {"MB": 2**20, None: 1}
NUMBER = re.compile(r"(\d[\d,]*(?:\.\d+)?)(?: (MB))?")


@dataclass(frozen=True, slots=True)
class Limit:
    """A row of the tables."""

    what: str
    most: str  # the number, as the page has it
    place: str  # where it is set
    refusal: str  # what who is refused gets

    @property
    def numbers(self) -> set[float]:
        """All numbers of the limit, also those in its name."""
        found = NUMBER.findall(f"{self.what} {self.most}")
        return {float(number.replace(",", "")) * UNITS[unit or None] for number, unit in found}


def name_of(limit: Limit) -> str:
    """Returns the name of a row in pytest's output."""
    return limit.what


def limits() -> list[Limit]:
    """Returns the rows of the tables."""
    text = (TOP / "docs" / "VOLUNTEERS.md").read_text()
    section = text.partition("\n#### The limits of calls, files and accounts\n")[2].partition("\n### ")[0]
    rows = [line.strip("|").split("|") for line in section.splitlines() if line.startswith("| ")]
    return [Limit(*(cell.strip() for cell in row)) for row in rows if not row[0].startswith(" Limit of ")]


LIMITS = limits()


def constants_of(limit: Limit) -> dict[str, float]:
    """Returns the constants that a row names, with their values."""
    found: dict[str, float] = {}
    for names, module in re.findall(r"((?:`[A-Z_]+`(?:, )?)+) in `([\w/]+)\.py`", limit.place):
        package = "bsched_files" if module == "project_settings" else "bsched_bridge"
        code = importlib.import_module(f"{package}.{module.replace('/', '.')}")
        found |= {name: getattr(code, name) for name in re.findall("[A-Z_]+", names)}
    return found


def test_the_tables_are_read() -> None:
    assert len(LIMITS) > 30
    assert sum(len(constants_of(limit)) for limit in LIMITS) > 30


@pytest.mark.parametrize("limit", LIMITS, ids=name_of)
def test_the_numbers_are_those_of_the_code(limit: Limit) -> None:
    for name, value in constants_of(limit).items():
        if name == "KEPT_THREADS":
            assert f"`threads` less {value}" in limit.most
        assert value in limit.numbers, name


@pytest.mark.parametrize("limit", [limit for limit in LIMITS if "in nginx" in limit.place], ids=name_of)
def test_the_numbers_are_those_of_nginx(limit: Limit) -> None:
    for zone in re.findall("`(bsched_[a-z_]+)`", limit.place):
        found = {
            float(number)
            for pattern in ZONE_NUMBERS
            for number in re.findall(pattern.format(zone=zone), NGINX)
        }
        assert found and found <= limit.numbers, zone


@pytest.mark.parametrize("limit", [limit for limit in LIMITS if "*bridge.toml*" in limit.place], ids=name_of)
def test_the_defaults_are_those_of_the_settings(limit: Limit) -> None:
    """A default that is a number stands on the bridge's page, too."""
    page = (TOP / "bridge" / "README.md").read_text()
    for key in re.findall("`([a-z_]+)`", limit.place):
        row = re.search(rf"^\|[^|]*`{key}`[^|]*\|[^|]*\| ([^|]*) \|$", page, re.MULTILINE)
        assert row is not None, key
        if row[1].isdecimal():
            assert float(row[1]) in limit.numbers, key


def test_volunteers_read_these_texts() -> None:
    with (TOP / "bridge" / "bsched_bridge" / "locale" / "bsched.pot").open("rb") as file:
        known = {
            re.sub(r"%\(\w+\)s", "..", text)
            for message in read_po(file)
            for text in ([message.id] if isinstance(message.id, str) else message.id)
        }
    shown = {text for limit in LIMITS for text in re.findall('"([^"]+)"', limit.refusal)}
    assert len(shown) > 10 and shown <= known
