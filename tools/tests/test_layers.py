"""Tests the subpackages of the tools: they import nothing above them, and the heads list what there is."""
from pathlib import Path

from package_layers import faulty_heads, upward_imports

import bsched_tools

PACKAGE = Path(bsched_tools.__file__).parent


def test_no_import_goes_upward() -> None:
    assert upward_imports(PACKAGE) == []


def test_the_heads_list_all_modules() -> None:
    assert faulty_heads(PACKAGE) == []
