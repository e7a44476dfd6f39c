"""The project's picture, and plots of the last month."""
from pathlib import Path

import pytest
from bridges import Bridge
from pages_seen import page_of, plots_of, with_key

from bsched_bridge.pages.pictures import TITLES
from bsched_files.plots import COMPUTERS, CREDIT, RESULTS
from bsched_files.toml_entries import OperatorFault


def test_the_picture_of_the_project(project: Path, bridge: Bridge) -> None:
    (project / "sky.PNG").write_bytes(b"a picture")
    with_key(project, bridge, 'picture = "sky.PNG"\npicture_text = "The <sky>"')
    page = page_of(bridge.got("/p/"))
    (image,) = [fields for tag, fields in page.tags if tag == "img"]
    assert image["alt"] == "The <sky>"
    status, fields, body = bridge.got(image["src"])
    assert (status, fields["Content-Type"], body) == ("200 OK", "image/png", b"a picture")
    assert fields["Cache-Control"] == "public, max-age=31536000, immutable"
    assert "sandbox" in fields["Content-Security-Policy"]
    assert bridge.got("/p/picture/sky.PNG")[0] == bridge.got("/p/picture/")[0] == "404 Not Found"


@pytest.mark.parametrize(
    "lines, why",
    [
        ('picture = "none.png"', "does not exist"),
        ('picture = "key"', "does not end with .png"),
        ('picture = "large.png"', "more than 2,097,152 bytes"),
        ('picture = "folder.png"', "is no file"),
        ('picture_text = "a\\nb"', "is not one line"),
    ],
)
def test_a_picture_that_can_not_be(project: Path, bridge: Bridge, lines: str, why: str) -> None:
    (project / "large.png").write_bytes(bytes(2 * 1024 * 1024 + 1))
    (project / "folder.png").mkdir()
    with pytest.raises(OperatorFault, match=why):
        with_key(project, bridge, lines)


def images(bridge: Bridge) -> list[dict[str, str]]:
    """Returns the pictures on the project's page."""
    return [fields for tag, fields in page_of(bridge.got("/p/")).tags if tag == "img"]


def test_the_titles_of_plots_are_translated() -> None:
    assert set(TITLES) == {RESULTS, COMPUTERS, CREDIT}


def test_the_plots_of_the_last_month(project: Path, bridge: Bridge) -> None:
    with_key(project, bridge, 'plots = "plots"')
    assert images(bridge) == []  # the folder is not there yet
    plots_of(project, "results", "credit")
    first = images(bridge)
    assert [image["alt"] for image in first] == ["results & text", "credit & text"]
    status, fields, body = bridge.got(first[0]["src"])
    assert (status, fields["Content-Type"], body) == ("200 OK", "image/svg+xml", b"<svg>results</svg>")
    plots_of(project, "results")
    assert len(images(bridge)) == 1 and images(bridge)[0]["src"] == first[0]["src"]
    assert bridge.got(first[1]["src"])[0] == "404 Not Found"


@pytest.mark.parametrize(
    "text",
    [
        "{",
        "[]",
        '{"format": 2, "plots": []}',
        '{"format": 1, "plots": 1}',
        '{"format": 1, "plots": [1]}',
        '{"format": 1, "plots": [{"file": "../key", "title": "", "text": ""}]}',
        '{"format": 1, "plots": [{"file": "none.svg", "title": "", "text": ""}]}',
        '{"format": 1, "plots": [{"file": "large.svg", "title": "", "text": ""}]}',
    ],
)
def test_plots_that_cant_be_read_leave_those_before(project: Path, bridge: Bridge, text: str) -> None:
    with_key(project, bridge, 'plots = "plots"')
    plots_of(project, "results")
    assert len(images(bridge)) == 1
    (project / "plots" / "large.svg").write_bytes(bytes(524_289))
    (project / "plots" / "plots.json").write_text(text)
    assert len(images(bridge)) == 1
