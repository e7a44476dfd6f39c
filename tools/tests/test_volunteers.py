"""Which users agreed to be named, and how."""
import gzip
from pathlib import Path

import pytest
from exports_read import read
from lives import life_of, stored_life
from made_project import MadeProject

from bsched_bridge.accounts.teams import Teams
from bsched_bridge.common.state_file import StateFile
from bsched_bridge.people.barring import Barring
from bsched_bridge.people.members import Members, first_heard
from bsched_files.faults import Fault
from bsched_tools import exports
from bsched_tools.users import agreed_in
from bsched_tools.volunteers import Team


# ---- What the units do


def test_names_that_volunteers_chose(made_project: MadeProject, tmp_path: Path) -> None:
    """The bridge's file says who agreed to be named and who left. Its copy comes with that of the tables."""
    bridge = made_project.folder / "bridge"
    (bridge / "files").mkdir(parents=True)
    bridge_toml = 'name = "Sums & more"\nurl = "http://127.0.0.1:8081/"\nlisten = "127.0.0.1:8081"\n'
    bridge_toml += 'scheduler = "127.0.0.1:8080"\ncatalogue = "c.toml"\nstate = "bridge.db"\n'
    (bridge / "bridge.toml").write_text(bridge_toml)
    (bridge / "c.toml").write_text("")
    file = StateFile(bridge / "bridge.db")
    members = Members(file)
    for user in (1, 2, 3):
        with file.transaction() as connection:
            first_heard(connection, f"k{user}", f"User {user}", 1000, 0)
        member = members.of_key(f"k{user}")
        assert member is not None
        members.change(member, f"Chosen {user}", user == 1)
    Barring(file).delete("k3", 2000)
    made_project.serve()
    for user in (1, 2):
        made_project.call(user, 1, work_req_seconds=1)
        made_project.call(user, 2, results=[{"name": f"w1_{user - 1}", "exit_status": 0, "output": "7"}])
    made_project.call(3, 1, work_req_seconds=1)
    status, output, fault = made_project.tools("copy")
    assert (status, fault) == (0, "") and ".state: " in output
    rows = [line.split(",")[-2] for line in made_project.tools("results")[1].splitlines()[1:]]
    assert rows == ["Chosen 1", "User 2"]
    assert "of deleted, sent" in made_project.tools("job", "w2")[1]
    units = f'[copy]\nfolder = "copies"\ncheck = false\n[statistics]\nfolder = "{tmp_path}/stats"\n'
    (made_project.folder / "units.toml").write_text(f'{units}[page]\nfolder = "{tmp_path}/report"\n')
    for name in ("report", "stats"):
        (tmp_path / name).mkdir()
    assert "4 users, 1 of them named, and 3 computers" in made_project.tools("statistics")[1]
    assert "Chosen 1" in gzip.decompress((tmp_path / "stats" / "user.gz").read_bytes()).decode()
    assert made_project.tools("report")[0] == 0
    page = (tmp_path / "report" / "index.html").read_text()
    assert "<h1>Sums &amp; more: status</h1>" in page and "Chosen 2" not in page
    # who is anonymous is called so, with and without an agreement
    for user in (1, 2):
        member = members.of_key(f"k{user}")
        assert member is not None
        members.change(member, f"Chosen {user}", user == 1, True)
    rows = [line.split(",")[-2] for line in made_project.tools("results")[1].splitlines()[1:]]
    assert rows == ["anonymous", "anonymous"]
    assert "4 users, 1 of them named, and 3 computers" in made_project.tools("statistics")[1]
    users = gzip.decompress((tmp_path / "stats" / "user.gz").read_bytes()).decode()
    assert "<name>anonymous</name>" in users and "Chosen" not in users
    # their team has its name, and the credit of both
    founder, other = (members.of_key(f"k{user}") for user in (1, 2))
    assert founder is not None and other is not None
    Teams(file).make(founder, "Summers", 3000)
    Teams(file).join(other, "Summers")
    assert made_project.tools("statistics")[0] == 0
    users, teams = (
        gzip.decompress((tmp_path / "stats" / name).read_bytes()).decode() for name in ("user.gz", "team.gz")
    )
    assert users.count("<teamid>1</teamid>") == 1
    assert "<name>Summers</name>" in teams and "<nusers>2</nusers>" in teams
    file.close()


def test_nobody_is_named_who_did_not_agree(tmp_path: Path, folder: Path) -> None:
    lived = life_of(11)
    path = stored_life(lived, tmp_path / "project.db")
    assert exports.export([path], folder, frozenset()).agreed == 0
    assert read(folder, "user.gz") == [] and not any("userid" in host for host in read(folder, "host.gz"))
    agreed = tmp_path / "agreed"
    agreed.write_text("user1\n\nnobody\n")
    assert exports.export([path], folder, agreed_in(agreed)).agreed == 1
    (user,) = read(folder, "user.gz")
    assert user["name"] == "User 1"
    assert {host["userid"] for host in read(folder, "host.gz") if "userid" in host} == {user["id"]}
    with pytest.raises(Fault, match="No such file"):
        agreed_in(tmp_path / "none")


def test_a_founder_is_named_with_consent_alone(tmp_path: Path, folder: Path) -> None:
    path = stored_life(life_of(11), tmp_path / "project.db")
    teams = (Team(1, "Summers", 1000, "user1", frozenset({"user1"})),)
    exports.export([path], folder, frozenset(), teams=teams)
    (team,) = read(folder, "team.gz")
    assert team["name"] == "Summers" and "userid" not in team
    assert read(folder, "user.gz") == []
