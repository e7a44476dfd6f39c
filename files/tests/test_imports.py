"""Tests that the package of formats imports neither program, that neither program imports the other one, and
that its modules are listed.
"""
import ast
import re
from collections.abc import Iterator
from pathlib import Path

import pytest

import bsched_files

TOP = Path(__file__).resolve().parent.parent.parent
FOLDERS = {
    "bsched_bridge": TOP / "bridge" / "bsched_bridge",
    "bsched_files": TOP / "files" / "bsched_files",
    "bsched_tools": TOP / "tools" / "bsched_tools",
}
MAY = {
    "bsched_bridge": {"bsched_bridge", "bsched_files"},
    "bsched_files": {"bsched_files"},
    "bsched_tools": {"bsched_tools", "bsched_files"},
}


def imported(path: Path) -> Iterator[str]:
    """Yields the first names of what a module imports, also within a function."""
    for node in ast.walk(ast.parse(path.read_text())):
        if isinstance(node, ast.Import):
            yield from (name.name.partition(".")[0] for name in node.names)
        elif isinstance(node, ast.ImportFrom) and node.level == 0 and node.module:
            yield node.module.partition(".")[0]


@pytest.mark.parametrize("package", FOLDERS)
def test_who_imports_whom(package: str) -> None:
    for path in FOLDERS[package].rglob("*.py"):
        assert {name for name in imported(path) if name in FOLDERS} <= MAY[package], path


def test_the_modules_are_listed() -> None:
    heads = re.findall(r"^([a-z_, ]+?)  +\S", bsched_files.__doc__ or "", re.MULTILINE)
    listed = {name for head in heads for name in head.split(", ")}
    assert listed == {path.stem for path in FOLDERS["bsched_files"].glob("[a-z]*.py")}
