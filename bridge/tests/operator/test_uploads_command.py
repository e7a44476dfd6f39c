"""The command `bsched-bridge uploads`: files that are not reported."""
import json
import subprocess
import sys

from bridges import ENVIRONMENT, Bridge
from handing_out import MOST, SIZE, TENTH, hand_out, send
from messages import FIRST, request
from uploading import DONE, on_disk


def ordered(bridge: Bridge, *words: str) -> tuple[int, str, str]:
    """Runs the command while the bridge serves."""
    completed = subprocess.run(
        [sys.executable, "-m", "bsched_bridge", "uploads", "--config", bridge.folder / "bridge.toml", *words],
        capture_output=True,
        text=True,
        env=ENVIRONMENT,
        timeout=600,
    )
    return completed.returncode, completed.stdout, completed.stderr


def test_the_command_lists_what_is_not_reported(file_bridge: Bridge) -> None:
    assert ordered(file_bridge)[1] == (
        f"0 files of 0 bytes are not reported; an account may have {TENTH}. "
        f"All uploads have 0 bytes of {MOST}\n"
    )
    for user in ("ann", "bob"):  # the bridge knows them by their calls
        file_bridge.call(request(key=f"{user}-key", cpid="c1", seconds=0))
    small, large = hand_out(file_bridge, "ann", 1), hand_out(file_bridge, "bob", 2)
    assert [send(file_bridge, name) for name in large] == [DONE] * 2 and send(file_bridge, small[0]) == DONE
    assert send(file_bridge, hand_out(file_bridge, "ann", 1, "c9")[0], b"x") == DONE
    file_bridge.application.exchange.barring.bar("bob-key", 1)
    status, output, fault = ordered(file_bridge, "--json")
    rows = [json.loads(line) for line in output.splitlines()]
    assert (status, fault) == (0, "") and all(row.pop("oldest").startswith("20") for row in rows)
    assert rows == [
        {
            "key": "bob..",
            "name": "Bob",
            "state": "barred",
            "computer": FIRST + 1,
            "files": 2,
            "bytes": 2 * SIZE,
        },
        {"key": "ann..", "name": "Ann", "state": "", "computer": FIRST, "files": 1, "bytes": SIZE},
        {"key": "ann..", "name": "Ann", "state": "", "computer": "-", "files": 1, "bytes": 1},
    ]
    lines = ordered(file_bridge)[1].splitlines()
    assert lines[0].split() == ["key", "name", "state", "computer", "files", "bytes", "oldest"]
    assert lines[-1].startswith(
        f"4 files of {3 * SIZE + 1} bytes are not reported; an account may have {TENTH}."
    )


def test_the_command_deletes_those_of_a_barred_account(file_bridge: Bridge) -> None:
    file_bridge.call(request(key="ann-key", cpid="c1", seconds=0))
    assert send(file_bridge, hand_out(file_bridge, "ann", 1)[0]) == DONE
    status, _, fault = ordered(file_bridge, "--delete", "ann-key")
    assert status == 1 and "Ann (ann..) is not barred" in fault and "run bsched-bridge bar first" in fault
    assert file_bridge.store.tables.used() == SIZE
    file_bridge.application.exchange.barring.bar("ann-key", 1)
    assert (
        ordered(file_bridge, "--delete", "ann-key")[1]
        == f"Ann (ann..): 1 files of {SIZE} bytes are deleted\n"
    )
    assert on_disk(file_bridge.folder) == {} and file_bridge.store.tables.used() == 0


def test_the_command_without_uploads(bridge: Bridge) -> None:
    assert ordered(bridge)[2] == "bsched-bridge: the project has no folder of uploads\n"
