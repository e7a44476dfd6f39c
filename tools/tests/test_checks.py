"""Rows that bsched refuses."""
import re
import sqlite3
from contextlib import closing
from pathlib import Path

import pytest
from doctor_asked import findings_of, short_life, statements_of
from hypothesis import given, settings, strategies
from lives import life_of, stored_life

from bsched_tools import start_times


# if a row of this table was changed or deleted, the doctor may name a row of these tables: another table
# refers to the row, or a count there is off
NAMED = {
    "instance": ["instance", "unit", "host"],
    "version": ["version", "version_class"],
    "version_class": ["version_class", "version"],
    "unit": ["unit", "instance", "unit_mark"],
    "unit_mark": ["unit_mark", "unit"],
}


@settings(max_examples=6, database=None)
@given(seed=strategies.integers(0, 2**32))
def test_the_tables_of_random_lives_are_good(tmp_path_factory: pytest.TempPathFactory, seed: int) -> None:
    path = stored_life(life_of(seed), tmp_path_factory.mktemp("life") / "project.db")
    assert findings_of(path) == []


@pytest.mark.parametrize("statement", statements_of("SPOILED"))
def test_rows_that_the_program_refuses(tmp_path: Path, statement: str) -> None:
    path = short_life(tmp_path / "project.db")
    with closing(sqlite3.connect(path, isolation_level=None)) as connection:
        changed = connection.execute(statement).rowcount
    lines = findings_of(path)
    assert changed > 0 and lines
    found = re.search(r"(?:UPDATE|INTO|FROM) (\w+)", statement)
    assert found is not None
    table = found[1]
    assert re.search(rf"row \S.* of (?:{'|'.join(NAMED.get(table, [table]))}): ", lines[0]), lines
    assert lines[-1].startswith("no scheduler wrote such rows")


def test_a_row_is_named_with_its_column(tmp_path: Path) -> None:
    path = short_life(tmp_path / "project.db")
    with closing(sqlite3.connect(path, isolation_level=None)) as connection:
        connection.execute("UPDATE unit SET delay_bound = 0 WHERE id = 2")
        connection.execute("UPDATE host SET held = 3")
    assert findings_of(path)[:-1] == [
        "row 2 of unit: delay_bound is 0, and out of its range",
        "row 1 of host: held is not how many instances it holds",
    ]


def test_secrets_are_not_printed(tmp_path: Path) -> None:
    path = short_life(tmp_path / "project.db")
    with closing(sqlite3.connect(path, isolation_level=None)) as connection:
        connection.execute("UPDATE account SET auth = 'my secret' WHERE id = 1")
    text = "\n".join(findings_of(path))
    assert "row 1 of account: auth is 'a value'" in text and "my secret" not in text
    with closing(sqlite3.connect(path, isolation_level=None)) as connection:
        connection.execute("UPDATE setting SET value = 'short' WHERE name = 'operator_key'")
    text = "\n".join(findings_of(path))
    assert "row operator_key of setting: value is another text" in text and "'short'" not in text


def test_rows_of_an_opening(tmp_path: Path) -> None:
    """There are two workunits, two instances of each, one host, and its call."""
    path = short_life(tmp_path / "project.db")
    with closing(sqlite3.connect(path)) as connection:
        counts = [
            connection.execute(f"SELECT count(*) FROM {name}").fetchone()[0]
            for name in ("unit", "instance", "host", "kept4")
        ]
    assert counts[0] == 2 and start_times.rows_in(path) == sum(counts)
    assert start_times.rows_in(tmp_path / "none.db") is None
