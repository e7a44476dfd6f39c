"""News that is added, listed and withdrawn."""
import os
import stat
import time
from pathlib import Path

import pytest
from made_project import MadeProject
from small_project import tools
from work_project import WorkProject
from work_tried import run_here

from bsched_files.news import MOST_NEWS
from bsched_tools import news

TEXT = "Second batch\n2024-10-04\n\nIt is out. See https://sums.example/ for more.\n"


def added(work: WorkProject, path: Path, text: str) -> tuple[int, str, str]:
    """Adds a text."""
    path.write_text(text)
    return tools("news", "add", "--project", f"{work.folder}/", path)


def test_news_is_added_listed_and_withdrawn(bare: WorkProject, tmp_path: Path) -> None:
    folder, options = bare.folder / "bridge" / "news", ("--project", f"{bare.folder}/")
    assert tools("news", "list", *options) == (0, "", "")
    assert not folder.exists()
    status, out, fault = added(bare, tmp_path / "text", TEXT)
    assert (status, fault) == (0, "") and out.startswith("news 1: Second batch\n")
    assert out.endswith("/news/1 shows it now\n")
    assert (folder / "1.txt").read_text() == TEXT and [path.name for path in folder.iterdir()] == ["1.txt"]
    status, out, fault = added(bare, tmp_path / "text", "Now\nThe project is two years old.\n")
    assert (status, fault) == (0, "") and out.startswith("news 2: Now\n")
    day = time.strftime("%Y-%m-%d ")
    lines = tools("news", "list", *options)[1].splitlines()
    assert lines[0].startswith(f"    2  {day}") and lines[0].endswith(" UTC  Now")
    assert lines[1:] == ["    1  2024-10-04 00:00 UTC  Second batch"]
    kept = folder / "withdrawn" / "2.txt"
    said = f"news 2 is withdrawn; {kept} keeps its text\n"
    assert tools("news", "withdraw", *options, 2) == (0, said, "")
    assert "two years" in kept.read_text() and not (folder / "2.txt").exists()
    assert tools("news", "list", *options)[1].splitlines() == lines[1:]
    assert added(bare, tmp_path / "text", TEXT)[1].startswith("news 3: ")


def test_the_bridge_may_read_it(bare: WorkProject, tmp_path: Path) -> None:
    """So may other members of the group, who may withdraw it."""
    before = os.umask(0o077)
    try:
        assert added(bare, tmp_path / "text", TEXT)[0] == 0
    finally:
        os.umask(before)
    folder, group = bare.folder / "bridge" / "news", (bare.folder / "settings.toml").stat().st_gid
    for path, mode in ((folder, 0o2770), (folder / "1.txt", 0o640)):
        found = path.stat()
        assert (stat.S_IMODE(found.st_mode), found.st_gid) == (mode, group)


def test_news_of_a_later_day(bare: WorkProject, tmp_path: Path) -> None:
    out = added(bare, tmp_path / "text", "Later\n2999-01-02 03:04\n\nx\n")[1]
    assert out.endswith("/news/1 shows it from 2999-01-02 03:04 UTC on\n")
    lines = tools("news", "list", "--project", f"{bare.folder}/")[1]
    assert lines == "    1  2999-01-02 03:04 UTC  Later (shown from then on)\n"


@pytest.mark.parametrize(
    "text, why",
    [
        ("\n\nwords", "text: line 1: the title is not one line of 1 to 100 characters"),
        ("t\n2024-10-40\nx", "text: line 2: '2024-10-40' is no date: write it as 2026-12-01"),
        ("t\nx\0", "text: line 2: it has a character that no page can show"),
    ],
)
def test_a_text_that_is_refused(bare: WorkProject, tmp_path: Path, text: str, why: str) -> None:
    status, out, fault = added(bare, tmp_path / "text", text)
    assert (status, out) == (1, "") and fault.startswith("bsched-tools: ") and why in fault
    assert fault.count("\n") == 1 and not (bare.folder / "bridge" / "news").exists()


def test_what_is_not_there(bare: WorkProject, tmp_path: Path) -> None:
    options = "--project", f"{bare.folder}/"
    status, out, fault = tools("news", "add", *options, tmp_path / "nothing")
    assert (status, out) == (1, "") and "nothing: No such file or directory" in fault
    for number in (1, 7):
        status, out, fault = tools("news", "withdraw", *options, number)
        assert (status, out) == (1, "") and f"there is no news {number}: " in fault
        assert added(bare, tmp_path / "text", TEXT)[0] == 0
    assert tools("news", "withdraw", *options, "x")[0] == tools("news", *options)[0] == 64


def test_a_file_that_was_spoiled_is_named(bare: WorkProject, tmp_path: Path) -> None:
    added(bare, tmp_path / "text", TEXT)
    (bare.folder / "bridge" / "news" / "2.txt").write_text("x\n")
    status, out, fault = tools("news", "list", "--project", f"{bare.folder}/")
    assert (status, out.count("\n")) == (1, 1) and "2.txt: line 2: '' is no date" in fault


def test_a_project_without_a_bridge(made_project: MadeProject, tmp_path: Path) -> None:
    (tmp_path / "text").write_text(TEXT)
    for words in (("add", tmp_path / "text"), ("list",), ("withdraw", 1)):
        status, out, fault = tools("news", words[0], "--project", f"{made_project.folder}/", *words[1:])
        assert (status, out) == (1, "") and "the project has no bridge: make one by" in fault


def test_a_full_folder(
    bare: WorkProject, tmp_path: Path, capsys: pytest.CaptureFixture[str], monkeypatch: pytest.MonkeyPatch
) -> None:
    assert MOST_NEWS == 500
    monkeypatch.setattr(news, "MOST_NEWS", 2)
    (tmp_path / "text").write_text(TEXT)
    words = "news", "add", "--project", f"{bare.folder}/", tmp_path / "text"
    assert [run_here(capsys, *words)[0] for _ in range(2)] == [0, 0]
    status, _, fault = run_here(capsys, *words)
    assert status == 1 and "it has 2 pieces of news: withdraw old ones first" in fault
