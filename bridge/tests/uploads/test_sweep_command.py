"""The command `bsched-bridge sweep`."""
import os
import time
from functools import partial
from pathlib import Path
from types import SimpleNamespace

import plain
import plain_tables
import pytest
from bridges import Bridge
from sweeping import RIGHT, later, ran
from twin import IMPORTS, Twin

from bsched_bridge.common.state_file import StateFault
from bsched_bridge.uploads import sweep_command
from bsched_files.tables import opened
from bsched_files.toml_entries import OperatorFault


def tables_of(twin: Twin, path: Path) -> Path:
    """Returns the tables of a bsched that heard what the twin heard."""
    plain_tables.create(path, {**plain.SETTINGS, "operator_key": "opkey-01"})
    tables = plain_tables.Tables(path, synchronous="OFF")
    service = plain_tables.Service(tables)
    for kind, text in IMPORTS.items():
        service.imported(kind, "first", text)
    for body in twin.heard:
        service.scheduler(body, int(time.time()))
    tables.connection.close()
    return path


def test_the_command(file_bridge: Bridge) -> None:
    ran(file_bridge, "ann", RIGHT)
    output = sweep_command.run(file_bridge.folder / "bridge.toml", [])  # while the bridge serves
    assert output.endswith(
        "0 results that are not canonical, 0 stored files; 0 bytes are deleted, and 6 are left"
    )
    with pytest.raises(OperatorFault, match="there is no copy in this folder"):
        sweep_command.run(file_bridge.folder / "bridge.toml", [file_bridge.folder])


@pytest.mark.parametrize("of_results, of_tables", [(1, 1), (12, 12), (12, 1), (1, 12), (12, 13)])
def test_the_tables_of_a_file_decide_about_its_results(
    file_bridge: Bridge, twin: Twin, monkeypatch: pytest.MonkeyPatch, of_results: int, of_tables: int
) -> None:
    """Two results agree, and the first one is canonical."""
    file_bridge.application.scheduler.file = of_results
    first, second = ran(file_bridge, "ann", RIGHT), ran(file_bridge, "bob", RIGHT)
    copy = tables_of(twin, file_bridge.folder / "copy.db")
    monkeypatch.setattr(sweep_command, "opened", partial(opened, file=of_tables))
    moment = later(file_bridge, 31)
    monkeypatch.setattr(sweep_command, "time", SimpleNamespace(time=lambda: moment))
    output = sweep_command.run(file_bridge.folder / "bridge.toml", [copy])
    swept = int(of_results == of_tables)
    assert f"{swept} results that are not canonical, 0 stored files" in output
    assert file_bridge.store.stored_files(first)
    assert bool(file_bridge.store.stored_files(second)) == (not swept)


@pytest.mark.skipif(os.geteuid() != 0, reason="only root has the rights of others")
def test_root_follows_no_link_in_the_folder_of_uploads(file_bridge: Bridge) -> None:
    another, lock = 65534, file_bridge.folder / "uploads" / "uploads.db.lock"
    lock.unlink()
    closed = file_bridge.folder / "closed"
    closed.mkdir(mode=0o700)
    states = file_bridge.folder.glob("bridge.db*")
    for path in (file_bridge.folder, *states, *lock.parent.rglob("*"), lock.parent):
        os.chown(path, another, another)
    lock.symlink_to(closed / "made")
    with pytest.raises(StateFault, match="Permission denied"):
        sweep_command.run(file_bridge.folder / "bridge.toml", [])
    assert not list(closed.iterdir()) and os.geteuid() == 0


def test_the_command_without_uploads(bridge: Bridge) -> None:
    with pytest.raises(OperatorFault, match="nothing to sweep"):
        sweep_command.run(bridge.folder / "bridge.toml", [])
