"""The jobs that went out, with their files."""
import sqlite3
from typing import Any

import pytest
from bridges import Bridge
from messages import FIRST, jobs, names, request
from reporting import OUT, reported, worked
from twin import Twin
from uploading import report, sha256_of

from bsched_bridge.uploads.handed_out import HandedOut


def test_a_job_keeps_the_files_that_it_went_out_with(file_bridge: Bridge) -> None:
    infos = worked(file_bridge)
    path = file_bridge.folder / "catalogue.toml"
    path.write_text(
        path.read_text().replace("output_files = [", 'output_files = [{ open_name = "new", max_nbytes = 5 },')
    )
    file_bridge.restart()
    assert reported(file_bridge, report("u1_0", infos)) == (0, f"out sha256:{sha256_of(OUT)} 11\nlog absent")


def test_if_the_folder_was_restored_bsched_says_which_application_it_is(file_bridge: Bridge) -> None:
    infos = worked(file_bridge)
    with file_bridge.store.tables.transaction() as connection:
        connection.execute("DELETE FROM job")
    assert reported(file_bridge, report("u1_0", []))[0] == -187
    with file_bridge.store.tables.transaction() as connection:
        connection.execute("DELETE FROM job")
    assert reported(file_bridge, report("u1_0", infos)) == (0, f"out sha256:{sha256_of(OUT)} 11\nlog absent")


def test_bsched_is_asked_once_for_results_that_did_not_go_out(
    file_bridge: Bridge, monkeypatch: pytest.MonkeyPatch
) -> None:
    file_bridge.call(request())
    asked: list[tuple[Any, ...]] = []
    statement = file_bridge.application.scheduler.statement

    def counted(*words: Any) -> Any:
        asked.append(words)
        return statement(*words)

    monkeypatch.setattr(file_bridge.application.scheduler, "statement", counted)
    reports = [(f"x{number}_0", "1") for number in range(50)]
    file_bridge.call(request(hostid=FIRST, seconds=0, reports=reports))
    assert len(asked) == 1


def test_a_job_that_another_host_had_in_other_tables_is_checked(file_bridge: Bridge) -> None:
    """The rows of the jobs are of another time than bsched's tables."""
    infos = worked(file_bridge)
    with file_bridge.store.tables.transaction() as connection:
        connection.execute("UPDATE job SET authenticator = 'bob-key'")
    assert reported(file_bridge, report("u1_0", []))[0] == -187
    with file_bridge.store.tables.transaction() as connection:
        connection.execute("UPDATE job SET authenticator = 'bob-key'")
    assert reported(file_bridge, report("u1_0", infos))[0] == 0


def test_a_job_that_cant_be_noted_goes_out_later(
    file_bridge: Bridge, twin: Twin, monkeypatch: pytest.MonkeyPatch
) -> None:
    """For some requests the disk of the uploads is full. Reports are acknowledged, and no job is lost."""
    plain = report("u1_0", [], status=1)  # an error has no files
    assert jobs(file_bridge.call(request())) == ["u1_0"]

    def full(*_words: object) -> None:
        raise sqlite3.OperationalError("database or disk is full")

    with monkeypatch.context() as patch:
        patch.setattr(HandedOut, "add", full)
        reply = file_bridge.call(plain.replace("<work_req_seconds>0<", "<work_req_seconds>60<"))
        assert names(reply, "result_ack") == ["u1_0"] and jobs(reply) == []
        assert jobs(file_bridge.call(request(hostid=FIRST, seconds=0))) == []
        assert twin.calls()[-1]["other_results"] == ["u2_0"]  # it is in hand, so it does not count as lost
    assert jobs(file_bridge.call(request(hostid=FIRST, seconds=0))) == ["u2_0"]
    assert jobs(file_bridge.call(request(hostid=FIRST, seconds=0, listed=["u2_0"]))) == []
