"""The files of results on the disk."""
from collections.abc import Callable
from pathlib import Path
from typing import Any

import pytest
from bridges import Bridge
from messages import FIRST, request, value
from reporting import OUT, reported, worked
from uploading import AGAIN, DATA, DONE, on_disk, report, sent, sha256_of, upload
from uploads_given import given

from bsched_bridge.catalogue.contents import read_catalogue
from bsched_bridge.uploads.store import UploadStore, check_uploads
from bsched_files.project_settings import read_settings
from bsched_files.toml_entries import OperatorFault


# ---- Settings


def test_what_was_half_received_is_deleted_at_the_start(file_bridge: Bridge) -> None:
    (file_bridge.folder / "uploads" / "temp" / "left").write_bytes(DATA)
    file_bridge.restart()
    assert on_disk(file_bridge.folder) == {}


@pytest.mark.parametrize(
    "old, new, fault",
    [
        ('folder = "uploads"', 'folder = "none/uploads"', "is not a folder"),
        ("free_bytes = 0", "free_bytes = -1", "line 11: free_bytes is not within"),
        ("most_bytes = 1_000_000\n", "", r"line 9: most_bytes is missing"),
        ("most_bytes = ", "other = 1\nmost_bytes = ", "line 12: other is not known here"),
        ('operator_key = "change-this-key"\n', "", r"\[uploads\] needs operator_key"),
        ("most_bytes = ", "keep_days = 6\nmost_bytes = ", "keep_days is not within"),
    ],
)
def test_faulty_settings(file_project: Path, old: str, new: str, fault: str) -> None:
    path = file_project / "bridge.toml"
    path.write_text(path.read_text().replace(old, new, 1))
    with pytest.raises(OperatorFault, match=fault):
        read_settings(path)


def test_a_secret_that_is_lost_is_not_replaced(file_bridge: Bridge) -> None:
    settings = file_bridge.application.settings.uploads
    assert settings is not None
    secret = settings.folder / "secret"
    kept = secret.read_bytes()
    secret.unlink()
    with pytest.raises(OperatorFault, match="secret: is missing: restore it"):
        UploadStore(settings)
    with pytest.raises(OperatorFault, match="secret: is missing: restore it"):
        check_uploads(file_bridge.application.settings, file_bridge.application.catalogue)
    assert not secret.exists()
    secret.write_bytes(kept[1:])
    with pytest.raises(OperatorFault, match="has 31 bytes"):
        UploadStore(settings)
    secret.write_bytes(kept)
    UploadStore(settings).close()


def test_a_process_that_keeps_its_turn_puts_uploads_off(
    file_bridge: Bridge, monkeypatch: pytest.MonkeyPatch
) -> None:
    monkeypatch.setattr("bsched_bridge.uploads.tables.SECONDS", 0.05)
    tokens = given(file_bridge)
    message = upload("u1_0_0", DATA, tokens["u1_0_0"])
    settings = file_bridge.application.settings.uploads
    assert settings is not None
    sweeping = UploadStore(settings)  # as another process has it
    with sweeping.tables.turn():
        assert sent(file_bridge, message) == AGAIN
        assert on_disk(file_bridge.folder) == {}
    assert sent(file_bridge, message) == DONE
    sweeping.close()


@pytest.mark.parametrize(
    "old, new, fault",
    [
        (
            "max_nbytes = 20_000",
            "max_nbytes = 2_000_000_000",
            "have up to 2000001000 bytes, and most_result_bytes",
        ),
        (
            "[uploads]",
            "[other]",
            "sum has output files, and the settings have no \\[uploads\\]|other is not known",
        ),
    ],
)
def test_settings_that_do_not_fit_the_catalogue(file_bridge: Bridge, old: str, new: str, fault: str) -> None:
    for name in ("catalogue.toml", "bridge.toml"):
        path = file_bridge.folder / name
        path.write_text(path.read_text().replace(old, new))
    with pytest.raises(OperatorFault, match=fault):
        settings = read_settings(file_bridge.folder / "bridge.toml")
        check_uploads(settings, read_catalogue(settings.catalogue))


def test_equal_files_are_stored_once_and_agree(file_bridge: Bridge) -> None:
    for client in ("ann", "bob"):
        infos = worked(file_bridge, key=f"{client}-key", cpid=client)
        hostid = FIRST + (client == "bob")
        body = report(f"u1_{hostid - FIRST}", infos, hostid=hostid, key=f"{client}-key", cpid=client)
        assert reported(file_bridge, body) == (0, f"out sha256:{sha256_of(OUT)} 11\nlog absent")
    assert on_disk(file_bridge.folder) == {f"store/{sha256_of(OUT)}": OUT}
    for client in ("ann", "bob"):
        reply = file_bridge.call(
            request(key=f"{client}-key", cpid=client, hostid=FIRST + (client == "bob"), seconds=0)
        )
        assert value(reply, "user_total_credit") == "5.000"


def spoil_by_append(path: Path) -> None:
    """Appends to a file, as somebody does who was given a link to it."""
    path.chmod(0o640)
    with path.open("ab") as file:
        file.write(b"x")


def spoil_by_other_bytes(path: Path) -> None:
    """Writes other bytes of the same length."""
    path.chmod(0o640)
    path.write_bytes(bytes(len(path.read_bytes())))


def spoil_by_link(path: Path) -> None:
    """Puts a link in the place of a file."""
    path.rename(path.with_name("elsewhere"))
    path.symlink_to("elsewhere")


SPOILS = [spoil_by_append, spoil_by_other_bytes, spoil_by_link, lambda path: path.write_bytes(b"")]


@pytest.mark.parametrize("spoil", SPOILS)
def test_a_spoiled_file_is_made_good_by_an_upload_with_its_content(
    file_bridge: Bridge, caplog: pytest.LogCaptureFixture, spoil: Callable[[Path], None]
) -> None:
    stored = file_bridge.folder / "uploads" / "store" / sha256_of(OUT)
    assert reported(file_bridge, report("u1_0", worked(file_bridge)))[0] == 0
    spoil(stored)
    infos = worked(file_bridge, key="bob-key", cpid="bob")
    assert stored.read_bytes() != OUT or stored.is_symlink()
    body = report("u1_1", infos, hostid=FIRST + 1, key="bob-key", cpid="bob")
    assert reported(file_bridge, body) == (0, f"out sha256:{sha256_of(OUT)} 11\nlog absent")
    assert stored.read_bytes() == OUT and not stored.is_symlink()
    assert caplog.text.count("was spoiled, and is made good by the upload of u1_1_0") == 1
    assert file_bridge.store.tables.used() == len(OUT)
    assert not list((file_bridge.folder / "uploads" / "temp").iterdir())


def test_a_file_that_is_right_stays_the_same(file_bridge: Bridge) -> None:
    stored = file_bridge.folder / "uploads" / "store" / sha256_of(OUT)
    assert reported(file_bridge, report("u1_0", worked(file_bridge)))[0] == 0
    before = stored.stat().st_ino
    infos = worked(file_bridge, key="bob-key", cpid="bob")
    assert reported(file_bridge, report("u1_1", infos, hostid=FIRST + 1, key="bob-key", cpid="bob"))[0] == 0
    assert stored.stat().st_ino == before


def test_a_file_that_is_spoiled_while_it_waits_for_its_turn_is_made_good(
    file_bridge: Bridge, monkeypatch: pytest.MonkeyPatch
) -> None:
    """What was read before the turn counts only if the file is the same at the turn."""
    stored = file_bridge.folder / "uploads" / "store" / sha256_of(OUT)
    assert reported(file_bridge, report("u1_0", worked(file_bridge)))[0] == 0
    infos, turn = worked(file_bridge, key="bob-key", cpid="bob"), file_bridge.store.tables.turn

    spoiled: list[Path] = []

    def spoiled_turn() -> Any:
        if not spoiled:
            spoil_by_append(stored)
            spoiled.append(stored)
        return turn()

    monkeypatch.setattr(file_bridge.store.tables, "turn", spoiled_turn)
    assert reported(file_bridge, report("u1_1", infos, hostid=FIRST + 1, key="bob-key", cpid="bob"))[0] == 0
    assert stored.read_bytes() == OUT


def test_a_file_that_is_spoiled_twice_is_an_error(file_bridge: Bridge) -> None:
    """No file that is wrong takes the place of another one."""
    folder = file_bridge.folder / "uploads"
    assert reported(file_bridge, report("u1_0", worked(file_bridge)))[0] == 0
    infos = worked(file_bridge, key="bob-key", cpid="bob")
    for path in (folder / "store" / sha256_of(OUT), folder / "pending" / f"u1_1_0.{sha256_of(OUT)}"):
        spoil_by_append(path)
    body = report("u1_1", infos, hostid=FIRST + 1, key="bob-key", cpid="bob")
    assert reported(file_bridge, body) == (-187, "an output file was lost")
