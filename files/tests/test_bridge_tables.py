"""Tests that docs/BRIDGE_TABLES.md has the tables of the files that a bridge makes."""
import re
import sqlite3
from contextlib import closing
from pathlib import Path

import pytest

from bsched_files.bridge_state import STATE
from bsched_files.sqlite_formats import SqliteFormat
from bsched_files.uploads import UPLOADS

PAGE = Path(__file__).resolve().parent.parent.parent / "docs" / "BRIDGE_TABLES.md"
HEADS = {"The state file": STATE, "The file of uploads": UPLOADS}
COLUMNS = 'SELECT name, type, "notnull", pk FROM pragma_table_xinfo(?1) ORDER BY cid'
Tables = dict[str, list[tuple[str, str]]]


def tables_of(form: SqliteFormat) -> Tables:
    """Returns the columns of each table of a new file, as the page writes them."""
    with closing(sqlite3.connect(":memory:", isolation_level=None)) as connection:
        form.prepare(connection)
        names = connection.execute(
            "SELECT name FROM sqlite_schema WHERE type = 'table' AND name NOT LIKE 'sqlite_%'"
        ).fetchall()
        return {
            name: [
                (column, f"{kind}, key" if key else kind if is_needed else f"{kind} or NULL")
                for column, kind, is_needed, key in connection.execute(COLUMNS, (name,))
            ]
            for (name,) in names
        }


@pytest.mark.parametrize("head", HEADS)
def test_the_page_has_the_tables(head: str) -> None:
    form = HEADS[head]
    part = PAGE.read_text().split(f"\n## {head}\n")[1].split("\n## ")[0]
    assert f"0x{form.application_id:x}" in part and f"its version is {form.version}." in part
    found: Tables = {}
    for section in part.split("\n### ")[1:]:
        name = re.match("`([a-z_]+)`: ", section)
        assert name is not None
        found[name[1]] = re.findall(r"^\| `([a-z_0-9]+)` \| ([A-Za-z ,]+) \|", section, re.MULTILINE)
    assert found == tables_of(form)
