"""Tests that each module has a test of its name, that no test imports another one, and that all Python has
its types checked."""
import ast
import re
import subprocess
from collections.abc import Iterator
from pathlib import Path

import pytest

TOP = Path(__file__).resolve().parents[2]
PACKAGES = ("bridge/bsched_bridge", "files/bsched_files", "tools/bsched_tools")
# These have none: tests of other modules try them. A module that gets its own test leaves the list.
WITHOUT = {
    "bridge/bsched_bridge/scheduler/probe.py",
    "files/bsched_files/bridge_state.py",
    "files/bsched_files/faults.py",
    "files/bsched_files/schemas.py",
    "files/bsched_files/tables.py",
    "files/bsched_files/timers.py",
    "files/bsched_files/toml_entries.py",
    "files/bsched_files/workunits.py",
    "tools/bsched_tools/answers.py",
    "tools/bsched_tools/command_line.py",
    "tools/bsched_tools/copies/faults.py",
}


def modules_of(package: str) -> Iterator[Path]:
    """Yields the modules of a package, within it."""
    folder = TOP / package
    return (path.relative_to(folder) for path in sorted(folder.rglob("*.py")) if path.stem != "__init__")


def test_each_module_has_a_test() -> None:
    without = {
        f"{package}/{module}"
        for package in PACKAGES
        for module in modules_of(package)
        if not (TOP / package)
        .with_name("tests")
        .joinpath(module.with_name(f"test_{module.stem.strip('_')}.py"))
        .exists()
    }
    assert without == WITHOUT


def imported(path: Path) -> Iterator[str]:
    """Yields the modules that a file imports."""
    for node in ast.walk(ast.parse(path.read_text())):
        if isinstance(node, ast.ImportFrom):
            yield node.module or ""
        elif isinstance(node, ast.Import):
            yield from (name.name for name in node.names)


@pytest.mark.parametrize("folder", ["bridge", "files", "packaging", "tools"])
def test_no_test_imports_another(folder: str) -> None:
    """What several tests use is in a module of its own."""
    files = list((TOP / folder / "tests").rglob("*.py"))
    assert [path.name for path in files for name in imported(path) if name.startswith("test_")] == []
    assert len(files) > 10


def listed(*places: str) -> set[str]:
    """Returns the files of the repository in some places, as git takes them. Without one it returns all."""
    command = ["git", "ls-files", "--cached", "--others", "--exclude-standard", "--", *places]
    completed = subprocess.run(command, cwd=TOP, check=True, capture_output=True, text=True, timeout=60)
    return {name for name in completed.stdout.splitlines() if (TOP / name).is_file()}


def is_python(name: str) -> bool:
    """Returns whether a file is Python, by its ending or its first line."""
    if name.endswith(".py"):
        return True
    with (TOP / name).open("rb") as file:
        line = file.readline(100)
    return line.startswith(b"#!") and b"python" in line


def test_all_python_has_its_types_checked() -> None:
    """Each file of Python is in one package of the list STRICT of the script `test`."""
    table = re.search(
        r"^declare -A STRICT=\(\n(.*?)^\)$", (TOP / "test").read_text(), re.DOTALL | re.MULTILINE
    )
    assert table is not None
    packages = [places.split() for places in re.findall(r"=\"(.*)\"$", table[1], re.MULTILINE)]
    checked = [name for places in packages for name in listed(*places) if is_python(name)]
    assert sorted(checked) == sorted(filter(is_python, listed()))
    assert len(packages) == 5 and len(checked) > 500
