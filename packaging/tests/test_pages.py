"""Tests packaging/pages: what it does with links, and the whole site if its generator is installed."""
import importlib.util
import re
import subprocess
from importlib.machinery import SourceFileLoader
from pathlib import Path
from types import ModuleType

import pytest

TOP = Path(__file__).resolve().parent.parent.parent
SCRIPT = TOP / "packaging" / "pages"


@pytest.fixture(scope="module")
def pages() -> ModuleType:
    """Returns the script as a module."""
    loader = SourceFileLoader("pages_script", str(SCRIPT))
    spec = importlib.util.spec_from_loader("pages_script", loader)
    assert spec is not None
    module = importlib.util.module_from_spec(spec)
    loader.exec_module(module)
    return module


@pytest.mark.parametrize(
    "link, shown",
    [
        ("[CLIENT](CLIENT.md#errors)", "[CLIENT](CLIENT.md#errors)"),
        ("[`perform`](../crates/commands/src/orders.rt)", "`perform`"),
        ("[here](#errors)", "[here](#errors)"),
        ("[Debian](https://www.debian.org/)", "[Debian](https://www.debian.org/)"),
        ("![status](pictures/status.png)", "![status](pictures/status.png)"),
    ],
)
def test_links_to_sources_become_text(pages: ModuleType, link: str, shown: str) -> None:
    text = pages.without_links_to_sources("docs/PROFILE.md", f"See {link}.", {"docs/CLIENT.md"})
    assert text == f"See {shown}."


def test_each_page_has_a_place(pages: ModuleType) -> None:
    names = [name for listed in pages.shown_pages().values() for name in listed]
    assert len(names) == len(set(names)) and "docs/PROFILE.md" in names


@pytest.mark.parametrize(
    "line, fault",
    [
        ('<a href="b.html#there">', ""),
        ('<a href="b.html#nowhere">', "a.html: b.html#nowhere leads to no heading"),
        ('<a href="c.html">', "a.html: c.html leads to no file"),
        ('<a href="https://www.debian.org/">', ""),
        (
            '<img src="https://example.org/x.png">',
            "a.html: https://example.org/x.png is fetched from elsewhere",
        ),
        ('<script src="//example.org/x.js">', "a.html: //example.org/x.js is fetched from elsewhere"),
    ],
)
def test_links_that_lead_nowhere(pages: ModuleType, tmp_path: Path, line: str, fault: str) -> None:
    (tmp_path / "a.html").write_text(line)
    (tmp_path / "b.html").write_text('<h1 id="there">')
    assert "\n".join(pages.faults_of(tmp_path)) == fault


def test_styles_that_a_server_would_have(pages: ModuleType, tmp_path: Path) -> None:
    (tmp_path / "x.css").write_text("@import url(/y.css); a { background: url(data:image/png;base64,) }")
    assert list(pages.faults_of(tmp_path)) == ["x.css: /y.css is fetched from elsewhere, or is not there"]


def files_of_the_copyright() -> set[str]:
    """Returns the files of the site that debian/copyright names."""
    text = (TOP / "debian" / "copyright").read_text()
    names = [
        name for field in re.findall(r"^Files: (.+(?:\n .+)*)", text, re.MULTILINE) for name in field.split()
    ]
    folder = "usr/share/doc/bsched/html/"
    return {name.removeprefix(folder) for name in names if name.startswith(folder)}


def test_the_site(tmp_path: Path) -> None:
    pytest.importorskip("furo")
    pytest.importorskip("myst_parser")
    command = ["/usr/bin/python3", str(SCRIPT), str(tmp_path / "site")]
    completed = subprocess.run(command, capture_output=True, text=True, timeout=1800)
    assert (completed.returncode, completed.stderr) == (0, "")
    assert "Restore a copy" in (tmp_path / "site" / "docs" / "WHEN_WRONG.html").read_text()
    static = [path for path in (tmp_path / "site" / "_static").rglob("*.*") if path.parent.name != "licences"]
    assert {str(path.relative_to(tmp_path / "site")) for path in static} == files_of_the_copyright()
    (tmp_path / "other").mkdir()
    refused = subprocess.run(
        [*command[:2], str(tmp_path / "other")], capture_output=True, text=True, timeout=600
    )
    assert refused.returncode == 2 and "is no site of packaging/pages" in refused.stderr
