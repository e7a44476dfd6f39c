"""A bridge that is stopped while it receives files and reports: no file of an acknowledged report is lost."""
from collections.abc import Callable, Iterator
from pathlib import Path
from typing import Any

import pytest
from bridges import Bridge
from messages import FIRST, jobs, names, request
from stopping import Steps, Stopped
from twin import Twin
from uploading import file_info, lost_report, on_disk, report, sent, sha256_of, tokens_of, upload

ONE, TWO, LOG = b"one", b"two" * 5000, b"log"
TEXT = f"out sha256:{sha256_of(TWO)} {len(TWO)}\nlog sha256:{sha256_of(LOG)} 3"


class Volunteer:
    """A client that gets a job, loses it and gets it again, uploads its files and reports it, each until it
    is done.
    """

    def __init__(self, bridge: Bridge) -> None:
        self.bridge = bridge
        self.tokens: dict[str, str] = {}
        self.done: list[str] = []

    def steps(self) -> Iterator[tuple[str, Callable[..., Any]]]:
        """Yields what the client does, in order."""
        yield "job", self.job
        yield "one", lambda: self.upload("u1_0_0", ONE)
        yield "two", lambda: self.upload("u1_0_0", TWO)
        yield "log", lambda: self.upload("u1_0_1", LOG, 1000)
        yield "report", self.report
        yield "again", self.report

    def job(self) -> bool:
        """Gets a job, or gets it again."""
        reply = self.bridge.call(request(hostid=self.hostid(), seconds=60))
        self.tokens = tokens_of(reply) or self.tokens
        return "u1_0" in jobs(reply)

    def hostid(self) -> int:
        """Returns the number that the client was given."""
        return FIRST if self.done else 0

    def upload(self, name: str, data: bytes, max_nbytes: int = 20_000) -> bool:
        """Uploads a file."""
        return sent(self.bridge, upload(name, data, self.tokens[name], max_nbytes=max_nbytes)) == 0

    def report(self) -> bool:
        """Reports the job."""
        infos = [file_info("u1_0_0", TWO), file_info("u1_0_1", LOG)]
        return names(self.bridge.call(report("u1_0", infos)), "result_ack") == ["u1_0"]

    def live(self) -> None:
        """Does what is left to do."""
        for name, act in self.steps():
            for _ in range(5):
                if name not in self.done and act():
                    self.done.append(name)
            assert name in self.done


def check(bridge: Bridge, done: list[str]) -> None:
    """Checks what must be so at each moment: each row has its file, and each good answer has its row."""
    disk, tables = on_disk(bridge.folder), bridge.store.tables
    for name, sha256 in tables.rows("SELECT name, sha256 FROM upload"):
        assert sha256_of(disk[f"pending/{name}.{sha256}"]) == sha256
    for (sha256,) in tables.rows("SELECT sha256 FROM file UNION SELECT sha256 FROM content"):
        assert sha256_of(disk[f"store/{sha256}"]) == sha256
    is_stored = bool(bridge.store.stored_files("u1_0"))
    for step, name, data in (("one", "u1_0_0", ONE), ("two", "u1_0_0", TWO), ("log", "u1_0_1", LOG)):
        if step in done and not (step == "one" and "two" in done) and not is_stored:
            sha256 = bridge.store.upload(name).sha256
            assert sha256 in (sha256_of(data), sha256_of(TWO))
    heard = [result for call in bridge.twin.calls() for result in call["results"]]
    for result in heard:
        assert (result["exit_status"], result["output"]) == (0, TEXT)
    if heard:
        assert disk[f"store/{sha256_of(TWO)}"] == TWO and disk[f"store/{sha256_of(LOG)}"] == LOG


@pytest.mark.parametrize(
    "is_after, is_power",
    [(False, False), (True, False), (True, True)],
    ids=[
        "killed before",
        "killed after",
        "power fails after",
    ],
)
def test_a_stop_between_each_two_steps(
    file_project: Path, monkeypatch: pytest.MonkeyPatch, is_after: bool, is_power: bool
) -> None:
    monkeypatch.setattr("bsched_bridge.scheduler.messages.PAUSE_SECONDS", 0.0)
    at, kinds = 0, set[str]()
    while True:
        at += 1
        for path in [*file_project.glob("bridge.db*"), *file_project.glob("uploads/uploads.db*")]:
            path.unlink()
        for path in file_project.glob("uploads/*/*"):
            path.unlink()
        twin = Twin()
        bridge = Bridge(file_project, twin)
        steps, volunteer = Steps(at, is_after), Volunteer(bridge)
        with monkeypatch.context() as patch:
            steps.watch(patch, bridge)
            try:
                volunteer.live()
            except Stopped:
                pass
        bridge.close()
        if is_power and steps.is_stopped:
            steps.fail_power(file_project / "uploads")
        bridge.start()
        check(bridge, volunteer.done)
        volunteer.live()
        check(bridge, volunteer.done)
        assert on_disk(file_project) == {f"store/{sha256_of(data)}": data for data in (TWO, LOG)}
        assert bridge.store.tables.used() == len(TWO) + len(LOG)
        bridge.close()
        twin.close()
        kinds |= steps.kinds
        if not steps.is_stopped:
            break
    assert at > 60
    assert kinds >= {
        "fsync",
        "rename",
        "link",
        "unlink",
        "BEGIN",
        "INSERT",
        "DELETE",
        "UPDATE",
        "COMMIT",
        "send",
    }


@pytest.mark.parametrize("is_after", [False, True], ids=["killed before", "killed after"])
def test_a_stop_while_files_take_the_place_of_earlier_ones(
    file_project: Path, monkeypatch: pytest.MonkeyPatch, is_after: bool
) -> None:
    monkeypatch.setattr("bsched_bridge.scheduler.messages.PAUSE_SECONDS", 0.0)
    at, is_stopped = 0, True
    while is_stopped:
        at += 1
        for path in [*file_project.glob("bridge.db*"), *file_project.glob("uploads/uploads.db*")]:
            path.unlink()
        for path in file_project.glob("uploads/*/*"):
            path.unlink()
        bridge = Bridge(file_project, Twin())
        volunteer = Volunteer(bridge)
        assert volunteer.job() and volunteer.upload("u1_0_0", ONE)
        volunteer.tokens = lost_report(bridge, [file_info("u1_0_0", ONE)])
        assert volunteer.upload("u1_0_0", TWO) and volunteer.upload("u1_0_1", LOG, 1000)
        steps = Steps(at, is_after)
        with monkeypatch.context() as patch:
            steps.watch(patch, bridge)
            try:
                assert volunteer.report()
            except Stopped:
                pass
        bridge.close()
        bridge.start()
        disk = on_disk(file_project)
        query = "SELECT file.sha256 FROM file JOIN job USING (result) WHERE stored_at IS NOT NULL"
        assert all(f"store/{sha256}" in disk for (sha256,) in bridge.store.tables.rows(query))
        assert volunteer.report()
        assert on_disk(file_project) == {f"store/{sha256_of(data)}": data for data in (TWO, LOG)}
        assert bridge.store.tables.used() == len(TWO) + len(LOG)
        bridge.close()
        bridge.twin.close()
        is_stopped = steps.is_stopped
    assert at > 20
