"""Users and their hosts over several files."""
from pathlib import Path

import pytest
from exports_read import read
from lives import Stored, life_of
from small_project import made_anew

from bsched_tools import exports


def test_several_files_are_summed_by_authenticator(tmp_path: Path, folder: Path) -> None:
    stored = Stored(tmp_path / "2025.db")
    stored.answer(life_of(11).lines)
    second = made_anew(stored.copy(tmp_path / "2026.db"))
    first = stored.close()
    exports.export([first], folder, None)
    alone = {user["id"]: float(user["total_credit"]) for user in read(folder, "user.gz")}
    exports.export([first, second], folder, None)
    both = {user["id"]: float(user["total_credit"]) for user in read(folder, "user.gz")}
    assert both == pytest.approx({number: 2 * credit for number, credit in alone.items()})
    assert sum(alone.values()) > 0
