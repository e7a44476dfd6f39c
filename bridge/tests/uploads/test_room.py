"""The room for uploads: on the disk, in the folder, and of each account and host."""
import os
import shutil
import subprocess
from dataclasses import replace
from pathlib import Path

import pytest
from bridges import Bridge
from handing_out import MOST, SIZE, TENTH, hand_out, send
from twin import Twin
from uploading import AGAIN, DATA, DONE, on_disk, sent, sha256_of, upload
from uploads_given import given

from bsched_bridge.uploads.handed_out import HandedOut


# ---- Several at once, and too little room


def test_the_folder_has_a_limit(file_bridge: Bridge, caplog: pytest.LogCaptureFixture) -> None:
    path = file_bridge.folder / "bridge.toml"
    path.write_text(path.read_text().replace("most_bytes = 1_000_000", "most_bytes = 12_000"))
    file_bridge.restart()
    tokens = given(file_bridge)
    assert sent(file_bridge, upload("u1_0_0", DATA, tokens["u1_0_0"])) == DONE
    for _ in range(3):
        assert sent(file_bridge, upload("u1_0_0", DATA, tokens["u1_0_0"])) == AGAIN
    assert caplog.text.count("the folder of uploads has as much as it may have") == 1
    assert sent(file_bridge, upload("u1_0_1", b"short", tokens["u1_0_1"], max_nbytes=1000)) == DONE
    assert file_bridge.store.tables.used() == len(DATA) + 5


def test_a_disk_with_too_little_room(file_bridge: Bridge, monkeypatch: pytest.MonkeyPatch) -> None:
    tokens = given(file_bridge)
    whole = shutil.disk_usage(file_bridge.folder).total  # others may free some of it meanwhile
    settings = replace(file_bridge.store.settings, free_bytes=whole + 1)
    monkeypatch.setattr(file_bridge.store.room, "settings", settings)
    message = upload("u1_0_0", DATA, tokens["u1_0_0"])
    assert sent(file_bridge, message) == AGAIN
    monkeypatch.setattr(file_bridge.store.room, "settings", replace(settings, free_bytes=0))
    assert sent(file_bridge, message) == DONE


@pytest.mark.skipif(os.geteuid() != 0, reason="only root can mount a small disk")
def test_a_full_disk_refuses_for_a_while_and_loses_nothing(
    file_project: Path, twin: Twin, monkeypatch: pytest.MonkeyPatch
) -> None:
    from bridges import Bridge

    disk = file_project / "uploads"
    disk.mkdir()
    mounted = subprocess.run(["mount", "-t", "tmpfs", "-o", "size=512k", "none", disk], capture_output=True)
    if mounted.returncode:
        pytest.skip(f"no disk can be mounted here: {mounted.stderr.decode()}")
    bridge = Bridge(file_project, twin)
    try:
        tokens = given(bridge)
        assert sent(bridge, upload("u1_0_0", DATA, tokens["u1_0_0"])) == DONE
        for size in (16_384, 4096, 1):  # fills the disk
            number = 0
            while True:
                try:
                    (disk / f"filler{size}_{number}").write_bytes(bytes(size))
                except OSError:
                    break
                number += 1
        before = on_disk(file_project)
        assert sent(bridge, upload("u1_0_0", DATA[::-1], tokens["u1_0_0"])) == AGAIN
        assert on_disk(file_project) == before
        for path in disk.glob("filler*"):
            path.unlink()
        assert sent(bridge, upload("u1_0_0", DATA[::-1], tokens["u1_0_0"])) == DONE
        assert on_disk(file_project) == {f"pending/u1_0_0.{sha256_of(DATA[::-1])}": DATA[::-1]}
    finally:
        bridge.close()
        subprocess.run(["umount", disk], check=True)


# ---- Nobody fills the folder for others


def test_five_hundred_tokens_of_an_account_leave_nine_tenths_to_others(
    file_bridge: Bridge, caplog: pytest.LogCaptureFixture
) -> None:
    """The attack: one account keeps the tokens of many hosts, and uploads all of their files."""
    files = [name for host in range(20) for name in hand_out(file_bridge, "ann", 25, f"c{host}")]
    assert len(files) == 500
    statuses = [send(file_bridge, name) for name in files]
    assert statuses == [DONE] * (TENTH // SIZE) + [AGAIN] * (500 - TENTH // SIZE)
    assert file_bridge.store.tables.used() == TENTH
    assert caplog.text.count("account ann..: the files that are not reported have most_account_bytes") == 1
    for number in range(9):
        others = hand_out(file_bridge, f"bob{number}", TENTH // SIZE)
        assert [send(file_bridge, name) for name in others] == [DONE] * (TENTH // SIZE)
    assert file_bridge.store.tables.used() == MOST


def test_an_account_has_what_the_settings_say(file_bridge: Bridge) -> None:
    path = file_bridge.folder / "bridge.toml"
    path.write_text(path.read_text() + f"most_account_bytes = {3 * SIZE}\n")
    file_bridge.restart()
    statuses = [send(file_bridge, name) for name in hand_out(file_bridge, "ann", 5)]
    assert statuses == [DONE, DONE, DONE, AGAIN, AGAIN]


def test_the_files_of_one_result_always_have_room(file_bridge: Bridge) -> None:
    path = file_bridge.folder / "bridge.toml"
    path.write_text(path.read_text() + "most_account_bytes = 1\n")
    file_bridge.restart()
    first, second = hand_out(file_bridge, "ann", 2)
    assert [send(file_bridge, first), send(file_bridge, second), send(file_bridge, first)] == [
        DONE,
        AGAIN,
        DONE,
    ]


def test_files_of_jobs_that_nobody_knows_have_a_bound_together(file_bridge: Bridge) -> None:
    """After a restore the bridge may lack jobs, so their files are taken, as far as an account's."""
    statuses = [send(file_bridge, f"gone{number}_0_0") for number in range(7)]
    assert statuses == [DONE] * 5 + [AGAIN] * 2


def test_files_of_errors_make_room_for_those_of_jobs_that_run(file_bridge: Bridge) -> None:
    """A host has at most what its running jobs may have, and never waits for the sweep."""
    jobs, files = HandedOut(file_bridge.store.tables), hand_out(file_bridge, "ann", 4)
    assert [send(file_bridge, name) for name in files[:3]] == [DONE] * 3
    jobs.end([name.rpartition("_")[0] for name in files[:3]], 1)
    assert send(file_bridge, files[3]) == DONE
    assert [name.partition(".")[0] for name in on_disk(file_bridge.folder)] == [f"pending/{files[3]}"]
    assert file_bridge.store.tables.used() == SIZE
