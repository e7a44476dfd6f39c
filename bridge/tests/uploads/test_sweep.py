"""What the sweep deletes, and what it keeps."""
import pytest
from bridges import Bridge
from hypothesis import given, strategies as st
from messages import FIRST, jobs, request
from sweeping import RIGHT, WRONG, later, ran
from uploading import file_info, on_disk, report, sha256_of

from bsched_bridge.people.hosts import Key
from bsched_bridge.requests.client_requests import read_request
from bsched_bridge.uploads.sweep import Decisions, Swept, sweep
from bsched_files.catalogue import OutputFile
from bsched_files.file_names import FIRST as FIRST_FILE, result_in_file
from bsched_files.moments import DAY

FILE = 12  # a later file of the project
FILES = st.sampled_from([FIRST_FILE, 2, FILE])
WORKUNITS = st.sampled_from(["u1", "u1_0", "u", "1", "12_0"])  # with names that look like results of others
NUMBERS = st.integers(0, 2)


def stored(bridge: Bridge) -> set[bytes]:
    """Returns the contents in store/."""
    return {data for name, data in on_disk(bridge.folder).items() if name.startswith("store/")}


def test_files_of_results_that_are_not_canonical_go(file_bridge: Bridge) -> None:
    right, wrong = ran(file_bridge, "ann", RIGHT), ran(file_bridge, "bob", WRONG)
    decisions = Decisions()
    # as long as the workunit is open, each may become canonical
    assert sweep(file_bridge.store, later(file_bridge, 99), decisions) == Swept()
    assert sweep(file_bridge.store, later(file_bridge, 99), None) == Swept()
    decisions.add("u1", right, f"out sha256:{sha256_of(RIGHT)} 6")
    assert sweep(file_bridge.store, later(file_bridge, 29), decisions) == Swept()
    swept = sweep(file_bridge.store, later(file_bridge, 31), decisions)
    assert swept == Swept(results=1, contents=1, nbytes=6)
    assert stored(file_bridge) == {RIGHT}
    assert file_bridge.store.stored_files(right) and not file_bridge.store.stored_files(wrong)
    assert file_bridge.store.tables.used() == 6
    assert sweep(file_bridge.store, later(file_bridge, 9999), decisions) == Swept()


def test_a_content_that_the_canonical_result_has_stays(file_bridge: Bridge) -> None:
    first, second = ran(file_bridge, "ann", RIGHT), ran(file_bridge, "bob", RIGHT)
    decisions = Decisions()
    decisions.add("u1", second, None)  # as with a digest program, whose output names no content
    assert sweep(file_bridge.store, later(file_bridge, 31), decisions) == Swept(results=1)
    assert stored(file_bridge) == {RIGHT}
    assert file_bridge.store.stored_files(second) and not file_bridge.store.stored_files(first)


def test_a_content_that_a_canonical_output_names_stays(file_bridge: Bridge) -> None:
    ran(file_bridge, "ann", RIGHT)
    decisions = Decisions()
    # the rows are of another time: a workunit of an earlier file has this content
    decisions.add("old", "old_0", f"out sha256:{sha256_of(RIGHT)} 6\nlog absent")
    decisions.add("u1", None, None)
    assert sweep(file_bridge.store, later(file_bridge, 31), decisions) == Swept(results=1)
    assert stored(file_bridge) == {RIGHT}


def test_files_of_workunits_that_failed_go(file_bridge: Bridge) -> None:
    ran(file_bridge, "ann", RIGHT)
    ran(file_bridge, "bob", WRONG)
    decisions = Decisions()
    decisions.add("u1", None, None)
    assert sweep(file_bridge.store, later(file_bridge, 31), decisions) == Swept(0, 0, 2, 2, 12)
    assert on_disk(file_bridge.folder) == {}


def test_a_later_file_has_its_own_decisions(file_bridge: Bridge) -> None:
    """A workunit of another file may have the same name in the tables."""
    file_bridge.application.scheduler.file = FILE
    right, wrong = ran(file_bridge, "ann", RIGHT), ran(file_bridge, "bob", WRONG)
    assert (right, wrong) == ("u1~12_0", "u1~12_1")
    others = Decisions()
    others.add("u1", "u1_1", None)
    others.add("u1", None, None, 13)
    assert sweep(file_bridge.store, later(file_bridge, 31), others) == Swept()
    others.add("u1", "u1_0", None, FILE)
    swept = sweep(file_bridge.store, later(file_bridge, 31), others)
    assert swept == Swept(results=1, contents=1, nbytes=6)
    assert stored(file_bridge) == {RIGHT}
    assert file_bridge.store.stored_files(right) and not file_bridge.store.stored_files(wrong)


def test_a_later_file_decides_nothing_about_the_first(file_bridge: Bridge) -> None:
    ran(file_bridge, "ann", RIGHT)
    decisions = Decisions()
    decisions.add("u1", None, None, FILE)
    assert sweep(file_bridge.store, later(file_bridge, 31), decisions) == Swept()
    assert stored(file_bridge) == {RIGHT}


@given(st.dictionaries(st.tuples(WORKUNITS, FILES), NUMBERS | st.none()), WORKUNITS, NUMBERS, FILES)
def test_a_result_goes_by_the_decision_on_its_workunit(
    decided: dict[tuple[str, int], int | None], workunit: str, number: int, file: int
) -> None:
    decisions = Decisions()
    for (name, of_file), canonical in decided.items():
        decisions.add(name, None if canonical is None else f"{name}_{canonical}", None, of_file)
    one = workunit, file
    assert decisions.may_go(result_in_file(f"{workunit}_{number}", file)) == (
        one in decided and decided[one] != number
    )


def test_uploads_and_jobs_that_nobody_reports_go(file_bridge: Bridge) -> None:
    result = ran(file_bridge, "ann", RIGHT, is_reported=False)
    assert sweep(file_bridge.store, later(file_bridge, 119), None) == Swept()
    assert list(on_disk(file_bridge.folder)) == [f"pending/{result}_0.{sha256_of(RIGHT)}"]
    # the deadline of the job is a day from now
    assert sweep(file_bridge.store, later(file_bridge, 122), None) == Swept(uploads=1, jobs=1, nbytes=6)
    assert on_disk(file_bridge.folder) == {}
    assert file_bridge.store.tables.used() == 0


def test_files_of_a_job_that_went_out_once_more_and_never_came_back_go(file_bridge: Bridge) -> None:
    result = ran(file_bridge, "ann", RIGHT, is_reported=False)
    checks = file_bridge.application.exchange.reports
    assert checks is not None
    body = report(result, [file_info(f"{result}_0", RIGHT)], key="ann-key", cpid="ann")
    checks.check(Key("ann-key", "ann"), read_request([body.encode()]))  # bsched does not hear of it
    reply = file_bridge.call(request(hostid=FIRST, key="ann-key", cpid="ann", seconds=0))
    assert jobs(reply) == [result] and stored(file_bridge) == {RIGHT}
    assert sweep(file_bridge.store, later(file_bridge, 119), None) == Swept()
    assert sweep(file_bridge.store, later(file_bridge, 122), None) == Swept(jobs=1, contents=1, nbytes=6)
    assert on_disk(file_bridge.folder) == {} and file_bridge.store.tables.used() == 0
    assert file_bridge.store.tables.row("SELECT count(*) FROM file") == (0,)


def test_a_file_without_a_row_goes(file_bridge: Bridge) -> None:
    (file_bridge.folder / "uploads" / "pending" / "left").write_bytes(RIGHT)
    assert sweep(file_bridge.store, later(file_bridge, 0), None) == Swept(uploads=1)


def test_a_stored_file_without_a_row_goes_after_a_day(
    file_bridge: Bridge, monkeypatch: pytest.MonkeyPatch
) -> None:
    """A full disk or a kill between the link and the row leaves it there."""
    ran(file_bridge, "ann", RIGHT)
    result = ran(file_bridge, "bob", WRONG, is_reported=False)
    upload_of_bob = file_bridge.store.upload(f"{result}_0")
    (file_bridge.folder / "uploads" / "store" / "notes of the operator").write_text("x")
    with monkeypatch.context() as patch:
        patch.setattr(file_bridge.store, "forget_files", None)  # the transaction fails at its first step
        with pytest.raises(TypeError):
            file_bridge.store.store_files(result, [(OutputFile("out", 1, False, True), upload_of_bob)])
    assert stored(file_bridge) == {RIGHT, WRONG, b"x"}
    assert sweep(file_bridge.store, later(file_bridge, 0) + DAY // 2, None) == Swept()
    assert sweep(file_bridge.store, later(file_bridge, 2), None) == Swept(contents=1, nbytes=6)
    assert stored(file_bridge) == {RIGHT, b"x"} and file_bridge.store.upload(f"{result}_0") is not None


def test_what_the_sweep_stopped_in_the_middle_of_is_done_the_next_time(
    file_bridge: Bridge, monkeypatch: pytest.MonkeyPatch
) -> None:
    right, wrong = ran(file_bridge, "ann", RIGHT), ran(file_bridge, "bob", WRONG)
    decisions = Decisions()
    decisions.add("u1", right, None)
    (file_bridge.folder / "uploads" / "store" / sha256_of(WRONG)).unlink()  # and then it was killed
    assert sweep(file_bridge.store, later(file_bridge, 31), decisions).results == 1
    assert stored(file_bridge) == {RIGHT} and not file_bridge.store.stored_files(wrong)
