"""Tests the subpackages of the bridge: each imports only those below it, and the heads list what there is."""
from pathlib import Path

from package_layers import faulty_heads, upward_imports

import bsched_bridge

PACKAGE = Path(bsched_bridge.__file__).parent


def test_no_import_goes_upward() -> None:
    assert upward_imports(PACKAGE) == []


def test_the_heads_list_all_modules() -> None:
    assert faulty_heads(PACKAGE) == []


def test_an_import_that_goes_upward_is_found(tmp_path: Path) -> None:
    """Also one of a module in no subpackage, and one within a function."""
    package = tmp_path / "pack"
    for name, text in {
        "__init__.py": '"""A package.\n\ntop    a module\nhigh   a subpackage\nlow    another one\n"""\n',
        "top.py": "from .high import one\nfrom .low.two import TWO\n",
        "high/__init__.py": '"""A subpackage.\n\none    a module\n"""\n',
        "high/one.py": "from pack.low import two\nfrom ..low.two import TWO\n",
        "low/__init__.py": '"""A subpackage.\n\ntwo, three    modules\n"""\n',
        "low/two.py": "from . import three\n\n\ndef late():\n    from ..high import one\n",
        "low/three.py": "from .. import top\nfrom pack.high.one import ONE\n",
    }.items():
        path = package / name
        path.parent.mkdir(parents=True, exist_ok=True)
        path.write_text(text)
    assert faulty_heads(package) == []
    assert upward_imports(package) == [
        "low/three.py imports top",
        "low/three.py imports high",
        "low/two.py imports high",
    ]
    (package / "low" / "four.py").touch()
    assert faulty_heads(package) == ["low"]
