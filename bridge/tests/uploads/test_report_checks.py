"""What bsched gets of reports whose results have output files, and which files are stored."""
from collections.abc import Callable
from typing import Any

import pytest
from bridges import Bridge
from messages import FIRST, jobs, names, request
from reporting import LOG, OUT, reported, worked
from twin import IMPORTS
from uploading import file_info, lost_report, on_disk, report, sent, sha256_of, tokens_of, upload

from bsched_bridge.people.hosts import Key
from bsched_files.uploads import StoredOutput

PLAIN = """\
[[app]]
name = "plain"

[[version]]
app = "plain"
platform = "x86_64-pc-linux-gnu"
version_num = 1
files = [{ name = "sum_1", signature = "sum_1.signature", main_program = true }]
"""
TEXT = f"out sha256:{sha256_of(OUT)} 11\nlog sha256:{sha256_of(LOG)} 11"


def test_the_files_of_a_good_report_are_stored(file_bridge: Bridge) -> None:
    infos = worked(file_bridge, log=LOG)
    assert reported(file_bridge, report("u1_0", infos)) == (0, TEXT)
    assert on_disk(file_bridge.folder) == {f"store/{sha256_of(OUT)}": OUT, f"store/{sha256_of(LOG)}": LOG}
    assert file_bridge.store.stored_files("u1_0") == {
        "out": StoredOutput(11, sha256_of(OUT)),
        "log": StoredOutput(11, sha256_of(LOG)),
    }
    assert file_bridge.store.tables.used() == 22


@pytest.mark.parametrize(
    "change, why",
    [
        (lambda infos: [], "output file out is not in the report"),
        (lambda infos: infos[1:], "output file out is not in the report"),
        (lambda infos: [infos[0].replace("u1_0_0", "u1_0_2")], "output file out is not in the report"),
        (lambda infos: [infos[0].replace("<nbytes>11", "<nbytes>12")], "output file out is not the one"),
        (lambda infos: [infos[0].replace("<md5_cksum>", "<md5_cksum>0")], "output file out is not the one"),
        (lambda infos: [file_info("u1_0_0", b"other")], "output file out is not the one"),
        (lambda infos: [infos[0], file_info("u1_0_1", LOG)], "output file log was not uploaded"),
        (
            lambda infos: [infos[0].replace("</file_info>", "<error_msg>timeout</error_msg></file_info>")],
            "output file u1_0_0 was not uploaded: timeout",
        ),
    ],
)
def test_a_report_without_its_files_is_an_error(
    file_bridge: Bridge, change: Callable[..., Any], why: str
) -> None:
    infos = worked(file_bridge)
    status, output = reported(file_bridge, report("u1_0", change(infos)))
    assert status == -187
    assert why in output
    assert not any(name.startswith("store/") for name in on_disk(file_bridge.folder))


@pytest.mark.parametrize("status, state, exit_status", [(3, 3, 3), (0, 3, 1), (-9, 6, -9)])
def test_the_error_of_a_program_is_passed_on(
    file_bridge: Bridge, status: int, state: int, exit_status: int
) -> None:
    infos = worked(file_bridge)
    body = report("u1_0", infos, output="no memory", status=status, state=state)
    assert reported(file_bridge, body) == (exit_status, "no memory")


def test_a_report_that_comes_again_says_the_same(file_bridge: Bridge) -> None:
    body = report("u1_0", worked(file_bridge))
    first = reported(file_bridge, body)
    file_bridge.restart()
    assert reported(file_bridge, body) == first
    # a false client can't change it either
    assert reported(file_bridge, report("u1_0", [])) == first
    assert on_disk(file_bridge.folder) == {f"store/{sha256_of(OUT)}": OUT}


def test_a_stranger_can_not_report_for_a_host(file_bridge: Bridge) -> None:
    infos = worked(file_bridge)
    file_bridge.call(request(key="bob-key", cpid="bob", seconds=0))
    file_bridge.call(report("u1_0", [], hostid=FIRST + 1, key="bob-key", cpid="bob"))
    file_bridge.call(report("u1_0", infos, hostid=FIRST + 1, key="bob-key", cpid="bob"))
    assert on_disk(file_bridge.folder) == {f"pending/u1_0_0.{sha256_of(OUT)}": OUT}
    assert reported(file_bridge, report("u1_0", infos))[0] == 0


def test_a_job_that_is_computed_anew_is_checked_anew(file_bridge: Bridge) -> None:
    infos = worked(file_bridge)
    file_bridge.twin.faults = ["unheard"] * 3
    file_bridge.call(report("u1_0", infos))  # its files are stored, and bsched does not hear of it
    states = file_bridge.states
    states.refused(states.begin(Key("ann-key", "c1")))  # as after a loss of the state file
    # the client lost the job, gets it again, and computes other bytes
    reply = file_bridge.call(request(hostid=FIRST, seconds=0))
    assert jobs(reply) == ["u1_0"]
    assert reported(file_bridge, report("u1_0", infos))[0] == -187
    token = tokens_of(reply)["u1_0_0"]
    assert sent(file_bridge, upload("u1_0_0", b"other", token)) == -1  # bsched has the report


def test_files_of_an_earlier_report_go_once_there_are_others(file_bridge: Bridge) -> None:
    tokens = lost_report(file_bridge, worked(file_bridge, log=LOG))
    assert sent(file_bridge, upload("u1_0_0", b"other", tokens["u1_0_0"])) == 0
    assert sent(file_bridge, upload("u1_0_1", LOG, tokens["u1_0_1"], max_nbytes=1000)) == 0
    assert file_bridge.store.tables.used() == len(OUT + LOG + b"other" + LOG)
    infos = [file_info("u1_0_0", b"other"), file_info("u1_0_1", LOG)]
    assert reported(file_bridge, report("u1_0", infos))[0] == 0
    assert sorted(on_disk(file_bridge.folder).values()) == sorted([b"other", LOG])
    assert file_bridge.store.tables.used() == len(b"other" + LOG)


def test_files_of_an_earlier_report_stay_if_another_result_has_them(file_bridge: Bridge) -> None:
    tokens = lost_report(file_bridge, worked(file_bridge))
    bob: dict[str, Any] = {"key": "bob-key", "cpid": "bob"}
    infos = worked(file_bridge, **bob)
    assert reported(file_bridge, report("u1_1", infos, hostid=FIRST + 1, **bob))[0] == 0
    assert sent(file_bridge, upload("u1_0_0", b"other", tokens["u1_0_0"])) == 0
    assert reported(file_bridge, report("u1_0", [file_info("u1_0_0", b"other")]))[0] == 0
    assert sorted(on_disk(file_bridge.folder).values()) == sorted([b"other", OUT])


def test_files_of_reports_that_a_call_has_no_room_for_are_not_stored(file_bridge: Bridge) -> None:
    infos = worked(file_bridge)
    others = "".join(f"<result><name>x{n}</name><exit_status>1</exit_status></result>" for n in range(256))
    file_bridge.call(report("u1_0", infos).replace("<result>", f"{others}<result>", 1))
    assert on_disk(file_bridge.folder) == {f"pending/u1_0_0.{sha256_of(OUT)}": OUT}
    assert file_bridge.twin.calls()[-1]["other_results"] == ["u1_0"]  # so it does not count as lost
    assert reported(file_bridge, report("u1_0", infos))[0] == 0


def test_a_report_that_can_not_be_stored_is_put_off(
    file_bridge: Bridge, monkeypatch: pytest.MonkeyPatch
) -> None:
    infos = worked(file_bridge)
    with monkeypatch.context() as patch:
        patch.setattr(
            "bsched_bridge.uploads.store.os.link", lambda *_paths: (_ for _ in ()).throw(OSError("full"))
        )
        reply = file_bridge.call(report("u1_0", infos))
    assert names(reply, "result_ack") == []
    call = file_bridge.twin.calls()[-1]
    assert (call["results"], call["other_results"]) == ([], ["u1_0"])
    assert reported(file_bridge, report("u1_0", infos))[0] == 0


def test_applications_with_and_without_output_files(file_bridge: Bridge) -> None:
    path = file_bridge.folder / "catalogue.toml"
    path.write_text(path.read_text().replace("[[version]]", f"{PLAIN}\n[[version]]", 1))
    file_bridge.restart()
    rows, units = file_bridge.twin.service.imported, IMPORTS["workunits"].splitlines()
    rows("apps", "plain", "name,agreement\nplain,exact\n")
    rows("versions", "plain", "app,platform,version_num\nplain,x86_64-pc-linux-gnu,1\n")
    rows("workunits", "plain", f"{units[0]}\n{units[1].replace('u1,sum', 'p1,plain')}\n")
    for number in range(1, 6):  # no user gets two instances of a workunit, so the last host gets another one
        held = jobs(file_bridge.call(request(cpid=f"c{number}", seconds=1000)))
    assert held == ["p1_0"]
    assert reported(file_bridge, report("p1_0", [], hostid=FIRST + 4, cpid="c5", output="7")) == (0, "7")


def test_a_file_that_somebody_removed_is_an_error(file_bridge: Bridge) -> None:
    infos = worked(file_bridge)
    (file_bridge.folder / "uploads" / "pending" / f"u1_0_0.{sha256_of(OUT)}").unlink()
    assert reported(file_bridge, report("u1_0", infos)) == (-187, "an output file was lost")


def test_no_file_of_a_report_is_stored_if_somebody_removed_another_one(file_bridge: Bridge) -> None:
    infos = worked(file_bridge, log=LOG)
    (file_bridge.folder / "uploads" / "pending" / f"u1_0_1.{sha256_of(LOG)}").unlink()
    assert reported(file_bridge, report("u1_0", infos)) == (-187, "an output file was lost")
    assert on_disk(file_bridge.folder) == {f"pending/u1_0_0.{sha256_of(OUT)}": OUT}
