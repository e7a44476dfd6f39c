"""The parts of `bridge/try_attacks` that need no nginx: the figures, the table and the counting."""
import os
import subprocess
import sys
import tempfile
import threading
from collections.abc import Iterator
from pathlib import Path
from types import SimpleNamespace
from typing import Any, cast

import pytest
from attacks import sending
from attacks.attack import Attack, Who
from attacks.command import chosen, described
from attacks.memory import Group, memory_group, unit_bytes, version_in
from attacks.figures import MB, Costs, Most, Served
from attacks.runs import Attacking, processor_seconds
from attacks.sending import Drip, drip_uploads, over_and_over, status_of
from attacks.table import ATTACKS, OF_FOUR_ADDRESSES, of_account
from attacks.target import address6_of, address_of, unnamed_bytes

TRY_ATTACKS = Path(__file__).resolve().parents[1] / "try_attacks"
GOOD = Served(tried=100, at_first_try=95, longest=2.0)


@pytest.mark.parametrize(
    "costs, fault",
    [
        (Costs(300, 1.0, MB, {"calls": GOOD}), None),
        (Costs(300, None, MB, {}), None),
        (Costs(301, 1.0, MB, {}), "the bridge had 301 MB of memory, and may have 300"),
        (Costs(1, 1.01, MB, {}), "it took 1.01 processor seconds a minute, and may take 1"),
        (Costs(1, 1.0, MB + 1, {}), "it took 1,000,001 bytes of disk, and may take 1,000,000"),
        (Costs(1, 1.0, 0, {"calls": Served(100, 94, 0.1, ["503"])}), "honest calls: 94 of 100"),
        (Costs(1, 1.0, 0, {"pages": Served(0, 0, 0.0)}), "honest pages: 0 of 0"),
        (Costs(1, 1.0, 0, {"uploads": Served(10, 10, 2.1)}), "honest uploads took up to 2.1 s"),
    ],
)
def test_what_is_beyond_the_figures(costs: Costs, fault: str | None) -> None:
    found = costs.excesses(Most())
    assert len(found) == (fault is not None) and (fault is None or found[0].startswith(fault)), found


def test_a_processor_that_is_not_measured_is_not_compared() -> None:
    assert Costs(1, 99.0, 0, {}).excesses(Most(processor_seconds=None)) == []


def test_honest_messages_are_counted() -> None:
    served = Served()
    for number in range(5):
        served.record(number != 0, number / 10, f"fault {number}")
    assert str(served) == "4 of 5, at most 0.40 s" and served.faults == ["fault 0"]


def test_each_attack_has_a_name_of_its_own_and_a_sentence() -> None:
    names = [attack.name for attack in ATTACKS]
    assert len(set(names)) == len(names)
    for attack in ATTACKS:
        assert f"{attack.name}" in described(attack) and attack.does[0].islower(), attack.name
    assert [attack.name for attack in chosen(["flood", "quiet"], False)] == ["flood", "quiet"]
    assert {one.name for one in chosen([], True)} - {one.name for one in chosen([], False)} == {
        one.name for one in ATTACKS if one.is_slow
    }
    with pytest.raises(ValueError, match="there is no attack nothing"):
        chosen(["flood", "nothing"], False)


def test_the_list_is_printed() -> None:
    done = subprocess.run(
        [sys.executable, TRY_ATTACKS, "--list"], capture_output=True, text=True, timeout=120, check=True
    )
    assert len(done.stdout.splitlines()) == len(ATTACKS)


def test_a_program_that_does_not_exist_is_refused() -> None:
    done = subprocess.run(
        [sys.executable, TRY_ATTACKS, "/nothing/bsched"], capture_output=True, text=True, timeout=120
    )
    assert done.returncode == 2 and "there is no program at /nothing/bsched" in done.stderr


def test_addresses() -> None:
    assert [address_of(number) for number in (0, 199, 200)] == ["127.0.1.1", "127.0.1.200", "127.0.2.1"]
    assert address6_of(0x0FFF) == "2001:db8:1:fff::1"


def test_files_without_a_name_are_counted() -> None:
    before = unnamed_bytes(os.getpid())
    with tempfile.TemporaryFile() as file:
        file.write(b"x" * 5000)
        file.flush()
        assert unnamed_bytes(os.getpid()) == before + 5000
    assert unnamed_bytes(os.getpid()) == before


@pytest.mark.parametrize(
    "answer, status",
    [
        (b"HTTP/1.1 200 OK\r\n\r\n<data_server_reply>\n<status>-1</status>\n", "-1"),
        (b"HTTP/1.1 503 Busy\r\n\r\n", "503"),
        (b"", "none"),
    ],
)
def test_the_status_of_an_answer(answer: bytes, status: str) -> None:
    assert status_of(answer) == status


def test_attackers_act_until_it_ends() -> None:
    ending, turns = threading.Event(), iter(range(1000))

    def act(number: int) -> str:
        if (turn := next(turns)) >= 50:
            ending.set()
        if turn == 7:
            raise ConnectionResetError
        return str(number % 2)

    found = over_and_over(ending, 2, act)
    assert found["ConnectionResetError"] == 1 and found.total() > 50


@pytest.mark.parametrize("is_by_minute", [True, False])
def test_what_an_attack_takes_at_once_counts_by_the_minute(is_by_minute: bool) -> None:
    """Else only what it takes after it has settled."""
    used = [1.0]

    def burst(_target: object, _ending: threading.Event) -> str:
        used[0] = 6.0
        return ""

    target = SimpleNamespace(processor_time=lambda: used[0])
    attack = Attack("burst", Who.NOBODY, "takes 5 seconds at once", burst, is_by_minute=is_by_minute)
    found = processor_seconds(Attacking(attack, cast(Any, target)), 1)
    assert (found > 0) == is_by_minute


def test_what_an_account_may_take() -> None:
    """Two seconds for calls in vain, and one for what is refused of four addresses."""
    assert [of_account(count).processor_seconds for count in (4, 16)] == [3.0, 6.0]
    assert OF_FOUR_ADDRESSES.processor_seconds == 1.0
    for attack in ATTACKS:
        if attack.who is Who.MEMBER and attack.may.processor_seconds not in (None, Most().processor_seconds):
            assert attack.is_by_minute, attack.name


# ---- Bodies that come by the byte


class Taken:
    """A message to a server that answers those at some URLs at once, and waits for the bodies of others."""

    def __init__(self, path: str) -> None:
        self.path = path

    def __enter__(self) -> "Taken":
        return self

    def __exit__(self, *_fault: object) -> None:
        pass

    def sendall(self, _data: bytes) -> None:
        """Sends nothing."""

    def settimeout(self, _seconds: float) -> None:
        """Waits never."""

    def recv(self, _size: int) -> bytes:
        """Returns the answer, or waits for the rest of the body."""
        if self.path == "/refused":
            return b"HTTP/1.1 200 OK\r\n\r\n<status>-1</status>"
        raise TimeoutError


@pytest.fixture
def server(monkeypatch: pytest.MonkeyPatch) -> Iterator[list[Drip]]:
    """Has messages go to a server that needs no port. Yields those that were begun."""
    begun: list[Drip] = []
    send = Drip.send

    def noted(self: Drip, ending: threading.Event) -> str:
        begun.append(self)
        path = self.head.split(b" ")[1].decode()
        monkeypatch.setattr(self, "connected", lambda: Taken(path))
        return send(self, ending)

    monkeypatch.setattr(Drip, "send", noted)
    monkeypatch.setattr(sending, "DRIP_SECONDS", 0.01)
    yield begun


def test_a_body_that_is_refused_does_not_count_as_taken(server: list[Drip]) -> None:
    """nginx answers a message without its body. Then nobody waits for the body, however long it is sent."""
    ending, nobody = threading.Event(), object()
    threading.Timer(1.0, ending.set).start()
    seen = drip_uploads(nobody, ending, ["/refused"] * 5 + ["/taken"] * 3)  # type: ignore[arg-type]
    assert seen.startswith("nginx waited for 3 bodies at most") and "'-1'" in seen, seen
    assert len(server) > 8  # those that are refused begin again


# ---- Memory groups


def test_the_memory_of_the_unit() -> None:
    assert unit_bytes() == 2 * 1024**3


@pytest.mark.parametrize("controllers", [None, "", "cpu io"])
def test_without_memory_groups_there_is_none(tmp_path: Path, controllers: str | None) -> None:
    if controllers is not None:
        (tmp_path / "cgroup.subtree_control").write_text(controllers)
    with memory_group(tmp_path, "made", 1000) as group:
        assert group is None
    assert not (tmp_path / "made").exists()


def test_the_first_version(tmp_path: Path) -> None:
    (tmp_path / "memory").mkdir()
    (tmp_path / "memory" / "memory.limit_in_bytes").touch()
    version = version_in(tmp_path)
    assert version is not None and version.folder == tmp_path / "memory"
    (tmp_path / "memory.oom_control").write_text("oom_kill_disable 0\nunder_oom 0\noom_kill 3\n")
    assert Group(tmp_path, version).kills() == 3


def test_the_second_version(tmp_path: Path) -> None:
    (tmp_path / "cgroup.subtree_control").write_text("cpu memory\n")
    version = version_in(tmp_path)
    assert version is not None and version.folder == tmp_path
    (tmp_path / "memory.events").write_text("low 0\nmax 3\noom 2\noom_kill 7\noom_group_kill 0\n")
    assert Group(tmp_path, version).kills() == 7
