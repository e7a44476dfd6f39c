"""Tests that a catalogue that the tools write is read again, and its rules and defaults."""
from pathlib import Path
from typing import Any

import pytest
from hypothesis import HealthCheck, given, settings
from hypothesis import strategies as st

from bsched_files.catalogue import (
    DISK,
    FACTOR,
    MEMORY,
    MOST_LINE,
    MOST_OUTPUTS,
    Bounds,
    CatalogueFile,
    ListedFile,
    ListedVersion,
    OutputFile,
    is_faulty_line,
)
from bsched_files.faults import Fault
from bsched_files.toml_entries import OperatorFault

HEAD = '# mine\nfiles = "files"\ncode_sign_key = "key"\n\n[[plan_class]]\nname = "mt"\nmin_ncpus = 2\n'
APP: dict[str, Any] = {
    "name": "count",
    "title": "Count & more",
    "input_files": [{"name": "{workunit}.in", "open_name": "in"}, {"name": "table.txt"}],
    "output_files": [
        {"open_name": "out", "max_nbytes": 1000},
        {"open_name": "log", "max_nbytes": 5, "optional": True, "compare": False},
    ],
    "command_lines": "lines",
}
VERSION: dict[str, Any] = {
    "app": "count",
    "platform": "x86_64-pc-linux-gnu",
    "version_num": 3,
    "files": [
        {"name": "count_3", "signature": "count_3.signature", "main_program": True},
        {"name": "help_3", "signature": "help_3.signature", "executable": True, "open_name": "help"},
    ],
}


def catalogue(folder: Path, *entries: tuple[str, dict[str, Any]]) -> CatalogueFile:
    """Makes a catalogue with entries as the tools add them."""
    path = folder / "catalogue.toml"
    path.write_text(HEAD)
    path.write_text(CatalogueFile(path).text_with(entries))
    return CatalogueFile(path)


def test_what_is_written_is_read(tmp_path: Path) -> None:
    file = catalogue(tmp_path, ("app", APP), ("version", VERSION))
    assert file.path.read_text().startswith(HEAD)
    assert (file.files, file.public_key) == (tmp_path / "files", tmp_path / "key")
    assert file.plan_classes() == ["mt"] and file.app("other") is None
    app = file.app("count")
    assert app is not None and app.members == APP
    assert (app.bounds, app.inputs) == (Bounds(MEMORY, DISK, FACTOR), ["{workunit}.in"])
    assert app.output_files == (OutputFile("out", 1000, False, True), OutputFile("log", 5, True, False))
    assert app.line_folder == tmp_path / "lines"
    files = ListedFile("count_3", None, True, True), ListedFile("help_3", "help", False, True)
    assert file.versions("count") == [ListedVersion("count", "x86_64-pc-linux-gnu", 3, files)]
    (tmp_path / "files").mkdir()
    (tmp_path / "files" / "count_3").write_bytes(bytes(7))
    assert file.version_bytes("count") == 7 and file.version_bytes("other") == 0


@settings(suppress_health_check=[HealthCheck.function_scoped_fixture])
@given(st.text(st.characters(blacklist_categories=["Cs"])), st.integers(1, 10**18), st.integers(1, 10**6))
def test_any_text_is_written(tmp_path: Path, title: str, disk: int, factor: int) -> None:
    members = {"name": "count", "title": title, "rsc_disk_bound": disk, "fpops_bound_factor": factor}
    app = catalogue(tmp_path, ("app", members)).app("count")
    assert app is not None and app.members == members and app.bounds == Bounds(MEMORY, disk, factor)


@pytest.mark.parametrize(
    "change, fault",
    [
        ({"output_files": [{"open_name": "a/b", "max_nbytes": 1}]}, "open_name is not a file name"),
        (
            {"output_files": [{"open_name": "a", "max_nbytes": 1}] * 2},
            "two output files have the open_name a",
        ),
        ({"output_files": [{"open_name": "a", "max_nbytes": 0}]}, "max_nbytes is not within"),
        ({"output_files": [{"open_name": "a", "max_nbytes": 1, "compare": False}]}, "no file is compared"),
        (
            {"output_files": [{"open_name": f"a{one}", "max_nbytes": 1} for one in range(MOST_OUTPUTS + 1)]},
            "has more than 20 files",
        ),
    ],
)
def test_faults_of_output_files(tmp_path: Path, change: dict[str, Any], fault: str) -> None:
    app = catalogue(tmp_path, ("app", {**APP, **change})).app("count")
    assert app is not None
    with pytest.raises(OperatorFault, match=fault):
        print(app.output_files)


def test_an_entry_that_can_not_be_added(tmp_path: Path) -> None:
    path = tmp_path / "catalogue.toml"
    path.write_text(f"app = []  # tables in one line\n{HEAD}")
    with pytest.raises(Fault, match="an entry can't be added at its end"):
        CatalogueFile(path).text_with([("app", APP)])


@pytest.mark.parametrize(
    "line, wanted",
    [
        ("-x 1\t", False),
        ("a\nb", True),
        ("a\r", True),
        ("\0", True),
        ("\ud800", True),
        ("é" * (MOST_LINE // 2), False),
        ("x" * (MOST_LINE + 1), True),
    ],
)
def test_command_lines(line: str, wanted: bool) -> None:
    assert is_faulty_line(line) is wanted
