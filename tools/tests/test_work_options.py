"""The arguments of the commands that make work."""
from pathlib import Path

import pytest
from small_project import rows_of
from work_project import WorkProject
from work_tried import is_refused

from bsched_tools import projects
from bsched_tools.catalogue_file import ProjectCatalogue


# ---- Mistakes: each gets one clear line, and changes nothing


def test_mistakes_in_what_is_named(work: WorkProject, tmp_path: Path) -> None:
    folder = work.make_inputs(3)
    large, odd, empty, nested = (tmp_path / name for name in ("large", "odd", "empty", "nested"))
    for path in (large, odd, empty, nested, nested / "more", tmp_path / "twice"):
        path.mkdir()
    (odd / "part 1.txt").write_text("1")
    (odd / "längs.txt").write_text("1")
    (tmp_path / "twice" / "part_00001.txt").write_text("1")
    with (large / "in").open("wb") as file:
        file.truncate(10**9 - 10**6 + 1)
    text = tmp_path / "text"
    text.write_text("-x\n")
    before = work.state()
    mistakes: list[tuple[list[object], dict[str, str], str]] = [
        ([folder], {"app": "none"}, "there is no application none; there are: count"),
        ([tmp_path / "none"], {}, f"{tmp_path}/none: No such file or directory"),
        ([large], {}, f"{large}/in: it has 999.0 MB, and with its program and outputs a job may use 1.0 GB"),
        (
            [odd / "part 1.txt"],
            {},
            "part 1.txt: rename it: its name makes that of a workunit, which has only",
        ),
        ([odd / "längs.txt"], {}, "längs.txt: rename it"),
        ([folder], {"batch": "a b"}, "--batch 'a b': the name of a batch has 1 to 40 letters"),
        ([folder], {"batch": "x" * 41}, "the name of a batch has 1 to 40 letters"),
        ([empty], {}, "there is no file in this folder"),
        ([nested], {}, "it is a folder within a folder of inputs"),
        ([folder, tmp_path / "twice"], {}, f"{folder}/part_00001.txt has the same name: rename one"),
        ([], {}, "just one of the three"),
        ([folder, "--lines", text], {}, "just one of the three"),
        (["--lines", text], {}, "count takes an input file for each workunit, and no command lines"),
        ([folder, "--disk", "2G"], {}, "--disk 2000000000: it is more than 1000000000, which the catalogue"),
    ]
    for words, options, fault in mistakes:
        is_refused(work, work.submit(*words, **options), fault, before)


# ---- Progress and outputs


@pytest.mark.parametrize(
    "words, columns, says",
    [
        (["--quorum", "1"], (1, 1, 0, 7, 4), "at its first client error"),
        (["--quorum", "2"], (2, 2, 2, 10, 6), "with more than 2 client errors, each by another user"),
        (["--quorum", "2", "--errors", "9"], (2, 2, 9, 15, 6), "with more than 9 client errors"),
        (["--quorum", "20", "--errors", "100"], (20, 20, 100, 100, 42), "with more than 100 client errors"),
        (["--errors", "0"], (2, 2, 0, 10, 6), "at its first client error"),
    ],
)
def test_how_many_errors_a_workunit_may_have(
    work: WorkProject, words: list[str], columns: tuple[int, ...], says: str
) -> None:
    """The limit of all instances leaves room for the errors."""
    work.make_inputs(1)
    output = work.submit(*words, work.inputs)[1]
    assert f"\nerrors     a workunit fails {says}" in output and "imported   1 workunits" in output
    work.end()
    query = "SELECT min_quorum, target_nresults, max_error_results, max_total_results, max_success_results "
    rows = rows_of(work.folder / "project.db", f"{query} FROM unit WHERE name LIKE 'run%'")
    assert rows == [columns]


def test_the_limit_of_a_jobs_time(bare: WorkProject) -> None:
    assert bare.app("--output", "out:1M", "--limit", "25")[0] == 0
    app = ProjectCatalogue(projects.Project(bare.folder)).app("count")
    assert app is not None and app.members["fpops_bound_factor"] == 25
    bare.make_inputs(1)
    output = bare.submit("--hours", "2", bare.inputs, "--dry-run")[1]
    assert "limit      a job is ended after 25 times its hours, 50 on a usual PC\n" in output
    assert bare.app("--limit", "0")[0] == 64


def test_jobs_that_are_reported_at_once(bare: WorkProject) -> None:
    """Who does not ask for it gets no entry. An application that is there is not changed by the option."""
    assert bare.app("--report-immediately")[0] == 0
    assert bare.app(name="later")[0] == 0
    catalogue = ProjectCatalogue(projects.Project(bare.folder))
    apps = [catalogue.app(name) for name in ("count", "later")]
    assert [app and app.members.get("report_immediately") for app in apps] == [True, None]
    assert bare.app()[0] == 0
    fault = "later is there with another report_immediately: edit it there"
    is_refused(bare, bare.app("--report-immediately", name="later"), fault, bare.state())
