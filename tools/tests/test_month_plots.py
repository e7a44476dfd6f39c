"""The plots of the last month, which the bridge shows on the project's page."""
import json
import re
import xml.etree.ElementTree as ElementTree
from pathlib import Path

from bsched_files.moments import DAY
from bsched_tools.history import Entry
from bsched_tools.month_plots import last_of_days, results_a_day, write_month

NOW = 20_000 * DAY + 7200


def entry(moment: int, reported: int, called: int | None = None, worked: int = 0, credit: int = 0) -> Entry:
    """Returns what a report counted."""
    people = {"hosts with a job of the last day": worked}
    if called is not None:
        people["hosts that called in the last day"] = called
    return Entry(moment, {}, {"reported": reported}, people, credit, 0)


def lived(days: int) -> list[Entry]:
    """Returns entries of some days, two a day: each day brings ten results."""
    begins = NOW - days * DAY
    return [entry(begins + half * DAY // 2, 5 * half, half, 1, 1000 * half) for half in range(2 * days + 1)]


def test_a_day_has_its_last_entry() -> None:
    days = last_of_days(lived(60), NOW)
    assert len(days) == 32  # 31 days, and the last entry before them
    assert [one.moment // DAY for one in days] == list(range(19_968, 20_000))
    assert all(one.moment % DAY == DAY // 2 + 7200 for one in days)
    assert last_of_days(lived(60), NOW - 10 * DAY)[-1].moment == NOW - 11 * DAY + DAY // 2
    assert last_of_days([], NOW) == []


def test_results_a_day() -> None:
    assert results_a_day([entry(0, 0), entry(DAY, 10), entry(3 * DAY, 50), entry(4 * DAY, 50)]) == [10, 20, 0]
    # reports within a day count as one day, and a further file of the project begins at 0
    assert results_a_day([entry(0, 0), entry(DAY // 2, 10), entry(2 * DAY, 3)]) == [10, 0]


def test_the_plots_and_their_words(tmp_path: Path) -> None:
    write_month(tmp_path, lived(40), NOW)
    listed = json.loads((tmp_path / "plots.json").read_text())
    assert [one["file"] for one in listed["plots"]] == ["results.svg", "computers.svg", "credit.svg"]
    texts = [one["text"] for one in listed["plots"]]
    assert texts[0].startswith("Results a day from 2024-09-03 to 2024-10-03: first 10, last 10,")
    assert "first 19, last 79, at least 19, at most 79." in texts[1] and "last 79" in texts[2]
    for one in listed["plots"]:
        svg = (tmp_path / one["file"]).read_text()
        root = ElementTree.fromstring(svg)
        assert root.tag == "{http://www.w3.org/2000/svg}svg" and root.attrib["aria-label"] == one["text"]
        assert "prefers-color-scheme" in svg and "<script" not in svg
        assert len(svg) < 524_288 and not re.search("https?://(?!www.w3.org/)", svg)
    before = (tmp_path / "results.svg").read_bytes()
    write_month(tmp_path, lived(40), NOW)
    assert (tmp_path / "results.svg").read_bytes() == before


def test_one_day_has_no_plots(tmp_path: Path) -> None:
    lives: list[list[Entry]] = [[], lived(1), lived(2)]
    for entries in lives:
        write_month(tmp_path, entries, NOW)
        assert json.loads((tmp_path / "plots.json").read_text()) == {"format": 1, "plots": []}
    assert [path.name for path in tmp_path.iterdir()] == ["plots.json"]


def test_computers_that_are_not_known_are_those_with_a_job(tmp_path: Path) -> None:
    write_month(tmp_path, [entry(NOW - day * DAY, 0, None, 7) for day in range(5, 0, -1)], NOW)
    listed = json.loads((tmp_path / "plots.json").read_text())
    assert "first 7, last 7" in listed["plots"][1]["text"]
