"""Faults of the settings that bsched refuses."""
import sqlite3
from collections.abc import Callable
from contextlib import closing
from pathlib import Path

import pytest
from doctor_asked import short_life
from small_project import SETTINGS, make_tables, tools

from bsched_tools import doctor


@pytest.mark.parametrize("value", ["'200'", "x'c8'", "2.5", "0"])
@pytest.mark.parametrize("name", ["daily_result_quota", "max_hosts", "max_wus_to_send"])
def test_settings_of_another_type(tmp_path: Path, name: str, value: str) -> None:
    """The column takes values of any type."""
    path = short_life(tmp_path / "project.db")
    with closing(sqlite3.connect(path, isolation_level=None)) as connection:
        connection.execute(f"UPDATE setting SET value = {value} WHERE name = '{name}'")
    status, output, fault = tools("doctor", "--tables", path)
    wrong, advice = output.splitlines()
    assert (status, fault) == (1, "") and "restore a copy" in advice
    assert f": row {name} of setting: value is " in wrong
    assert ": it must be a whole number from 1 to " in wrong


GOOD = """\
daily_result_quota = 4
max_hosts = 3
max_wus_in_progress = 3
max_wus_to_send = 2
operator_key = "change-this-key"
request_delay = 60
resend_lost_results = true
"""


@pytest.mark.parametrize(
    "change, wanted",
    [
        (lambda text: text, []),
        (lambda text: text.replace("max_hosts = 3\n", ""), ["max_hosts is missing"]),
        (lambda text: text + "further = 1\n", ["line 8: further is not a setting: remove it"]),
        (
            lambda text: text.replace("= 60", "= 2592001"),
            ["line 6: request_delay is 2592001: it must be a whole number from 0 to 2592000"],
        ),
        (
            lambda text: text.replace("= 60", "= 60.0"),
            ["line 6: request_delay is 60.0: it must be a whole number from 0 to 2592000"],
        ),
        (
            lambda text: text.replace("= 60", "= true"),
            ["line 6: request_delay is True: it must be a whole number from 0 to 2592000"],
        ),
        (
            lambda text: text.replace("true", "1"),
            ["line 7: resend_lost_results is 1: it must be true or false"],
        ),
        (
            lambda text: text.replace("change-this-key", "short"),
            [
                "line 5: operator_key is another text: "
                "it must be a text of 8 to 64 letters, digits, '_', '-' and '.'"
            ],
        ),
        (lambda text: text + "[table]\n", ["table is not a setting: remove it"]),
        (lambda text: "=" + text, ["it is not TOML: Invalid statement (at line 1, column 1)"]),
    ],
)
def test_settings(tmp_path: Path, change: Callable[[str], str], wanted: list[str]) -> None:
    path = tmp_path / "settings.toml"
    path.write_text(change(GOOD))
    assert list(doctor.examined(None, path)) == [f"{path}: {fault}" for fault in wanted]


def test_settings_that_are_no_text(tmp_path: Path) -> None:
    path = tmp_path / "settings.toml"
    path.write_bytes(b"max_hosts = 1\n\xff\n")
    assert list(doctor.examined(None, path)) == [f"{path}: line 2: it is not UTF-8"]
    assert list(doctor.examined(None, tmp_path)) == [f"{tmp_path}: Is a directory"]


def test_settings_that_differ_from_those_of_the_tables(tmp_path: Path) -> None:
    tables, path = make_tables(tmp_path / "project.db"), tmp_path / "settings.toml"
    lines = [f"{name} = {str(value).lower()}\n" for name, value in SETTINGS.items() if name != "operator_key"]
    path.write_text(f'{"".join(lines)}operator_key = "{SETTINGS["operator_key"]}"\n')
    assert list(doctor.examined(tables, path)) == []
    changed = path.read_text().replace("request_delay = 60", "request_delay = 90")
    path.write_text(changed.replace("change-", "other-"))
    first, second = doctor.examined(tables, path)
    assert first == f"{path}: request_delay is 90, and the tables were made with 60, which counts"
    assert second.startswith(f"{path}: operator_key is not that of the tables") and "other-" not in second
