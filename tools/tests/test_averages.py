"""What is kept for average credit between two runs."""
import json
from pathlib import Path

import pytest

from bsched_files.faults import Fault
from bsched_files.moments import DAY
from bsched_tools.averages import Averages
from bsched_tools.users import Host, User


def user(name: str, *hosts: Host) -> User:
    """Returns a user with some hosts."""
    return User(name, name, hosts={host.cpid: host for host in hosts})


def test_users_and_hosts_are_numbered_from_1(tmp_path: Path) -> None:
    averages = Averages(tmp_path / "averages")
    ann, bob = user("ann", Host("a"), Host("b")), user("bob", Host("c"))
    assert [averages.user(one, 100)[0] for one in (ann, bob, ann)] == [1, 2, 1]
    hosts = [(ann, "a"), (ann, "b"), (bob, "c"), (ann, "a")]
    assert [averages.host(one, one.hosts[cpid], 100).id for one, cpid in hosts] == [1, 2, 3, 1]


def test_an_older_copy_changes_nothing(tmp_path: Path) -> None:
    averages, ann = Averages(tmp_path / "averages"), user("ann", Host("a", millicredits=1000))
    host = ann.hosts["a"]
    averages.host(ann, host, 0)
    host.millicredits = 5000
    kept = averages.host(ann, host, 2 * DAY)
    before = kept.average, kept.time, kept.millicredits
    assert before[1:] == (2 * DAY, 5000)
    host.millicredits = 3000
    for moment in (DAY, 2 * DAY):
        kept = averages.host(ann, host, moment)
        assert (kept.average, kept.time, kept.millicredits) == before


def test_a_file_of_another_format(tmp_path: Path) -> None:
    path = tmp_path / "averages"
    Averages(path).write()
    fields = json.loads(path.read_text())
    path.write_text(json.dumps({**fields, "format": fields["format"] + 1}))
    with pytest.raises(Fault, match="it has format 2, and this program knows 1"):
        Averages(path)


def test_a_file_that_cant_be_read(tmp_path: Path) -> None:
    (tmp_path / "averages").mkdir()
    with pytest.raises(Fault, match="averages: "):
        Averages(tmp_path / "averages")
