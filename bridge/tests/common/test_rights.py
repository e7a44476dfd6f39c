"""With whose rights a command of the operator works."""
import os
import sqlite3
from pathlib import Path

import pytest
from ordering import done, order, refused

from bsched_bridge.common.state_file import StateFile

ANOTHER = 65534  # a user who is not root
only_root = pytest.mark.skipif(os.geteuid() != 0, reason="only root has the rights of others")


def given_away(project: Path) -> None:
    """Makes a state file, and gives the folder with all that is in it to another user."""
    StateFile(project / "bridge.db").close()
    for path in (project, *project.iterdir()):
        os.chown(path, ANOTHER, ANOTHER)


@only_root
def test_root_leaves_no_file_of_its_own(project: Path) -> None:
    given_away(project)
    done(project, "members")
    guest = StateFile(project / "bridge.db", is_guest=True)
    guest.rows("SELECT count(*) FROM member")
    made = {path.name: path.stat().st_uid for path in project.iterdir() if path.name.startswith("bridge.db")}
    assert set(made.values()) == {ANOTHER} and "bridge.db-shm" in made
    guest.close()
    done(project, "copy", "--to", str(project / "a.state"))
    assert (project / "a.state").stat().st_uid == ANOTHER


@only_root
def test_root_copies_into_a_folder_that_is_closed_to_others(project: Path) -> None:
    given_away(project)
    copies = project / "closed" / "copies"
    copies.mkdir(parents=True)
    (project / "closed").chmod(0o700)
    for _ in range(3):
        done(project, "copy", "--to", str(copies), "--keep", "2")
    assert {path.stat().st_uid for path in copies.iterdir()} == {ANOTHER}
    assert len(list(copies.iterdir())) == 2
    assert (os.geteuid(), os.getegid()) == (0, 0)


@only_root
@pytest.mark.parametrize("link", [".one.state.new", ".one.state.0.new", "one.state"])
def test_a_copy_follows_no_link_to_a_file_of_root(
    project: Path, link: str, monkeypatch: pytest.MonkeyPatch
) -> None:
    monkeypatch.setattr("secrets.token_hex", lambda _nbytes: "0")
    given_away(project)
    owned, copies = project / "owned", project / "copies"
    owned.write_text("of root")
    copies.mkdir()
    (copies / link).symlink_to(owned)
    os.chown(copies, ANOTHER, ANOTHER)
    order(project, "copy", "--to", str(copies / "one.state"))
    assert owned.read_text() == "of root" and owned.stat().st_uid == 0
    assert (copies / link).is_symlink()


@only_root
def test_a_state_file_that_is_a_link_leads_to_no_file_of_root(project: Path) -> None:
    given_away(project)
    owned = project / "owned.db"
    connection = sqlite3.connect(owned)
    connection.execute("CREATE TABLE t (a)")
    connection.close()
    owned.chmod(0o600)
    before = owned.read_bytes()
    (project / "bridge.db").unlink()
    (project / "bridge.db").symlink_to(owned)
    assert "unable to open" in refused(project, "members")
    assert owned.read_bytes() == before
    assert (os.geteuid(), os.getegid()) == (0, 0)
