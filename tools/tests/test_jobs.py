"""What happened to one workunit, and what one computer did."""
import json
import re

import pytest
from made_project import MadeProject
from stuck_lives import Life

from bsched_files.faults import Fault
from bsched_files.tables import opened
from bsched_tools.jobs import workunit_lines

UNITS = ["w", "w_1", "w_1_0"]  # with names that look like results of others


def found_by(life: Life, file: int, name: str) -> str | None:
    """Returns the workunit that a name finds in the tables of a file, or None."""
    for unit in UNITS:
        life.work(unit)
    with opened(life.copy(), file=file) as tables:
        try:
            first, *_, last = workunit_lines(tables, name)
        except Fault as fault:
            assert str(fault) == f"{tables.path}: there is no workunit {name}"
            return None
    found = re.fullmatch("workunit (.+) of the application dock: open", first)
    assert found is not None and last == f"{found[1]}_0: waits for a computer"
    return found[1]


# ---- Jobs and computers


def test_what_happened_to_a_workunit(made_project: MadeProject) -> None:
    """User 1 reports an error of w1, users 2 and 3 agree, and user 4's output differs. w2 is in work."""
    made_project.serve()
    for user in (1, 2):
        reply = json.loads(made_project.call(user, 1, work_req_seconds=1))
        assert [job["name"] for job in reply["results"]] == [f"w1_{user - 1}"]
    made_project.call(1, 2, results=[{"name": "w1_0", "exit_status": 197, "output": "no room\nfor it"}])
    made_project.call(2, 2, results=[{"name": "w1_1", "exit_status": 0, "output": "42"}])
    reply = json.loads(made_project.call(3, 1, work_req_seconds=1))
    assert [job["name"] for job in reply["results"]] == ["w1_2"]
    made_project.call(3, 2, results=[{"name": "w1_2", "exit_status": 0, "output": "42"}], work_req_seconds=1)
    assert made_project.tools("copy")[0] == 0
    status, output, fault = made_project.tools("job", "w1_1")
    assert (status, fault) == (0, "")
    lines = [re.sub(r"\d{4}-\d\d-\d\d \d\d:\d\d:\d\d", "MOMENT", line) for line in output.splitlines()]
    assert lines == [
        "workunit w1 of the application dock: done",
        "needs 2 successes, and gives 5.000 credit for each valid result",
        "accepted result: w1_1",
        "w1_0: client error; computer 1 of User 1, sent MOMENT, deadline MOMENT",
        "  the client says: no room",
        "    for it",
        "w1_1: valid; computer 2 of User 2, sent MOMENT, deadline MOMENT",
        "  output: 42",
        "w1_2: valid; computer 3 of User 3, sent MOMENT, deadline MOMENT",
        "  output: 42",
    ]
    output = made_project.tools("job", "w2")[1]
    assert "w2 of the application dock: open" in output and "in work; computer 3 of User 3" in output
    assert "w2_1: waits for a computer of another user" in output
    output = made_project.tools("host", 1)[1]
    assert output.startswith("computer 1 of User 1 (h): 0.000 credit\n") and "w1_0: client error" in output
    assert made_project.tools("job", "none")[0] == 1 and made_project.tools("host", 9)[0] == 1
    assert made_project.tools("host", 0)[0] == 64


@pytest.mark.parametrize("file", [1, 12])
@pytest.mark.parametrize(
    "name, meant",
    [
        ("w", "w"),
        ("w_0", "w"),
        ("w_1", "w_1"),
        ("w_1_0", "w_1_0"),
        ("w_1_1", "w_1"),
        ("w_1_0_0", "w_1_0"),
        ("w_x", None),
        ("x_0", None),
        ("_0", None),
        ("5", None),
        ("", None),
    ],
)
def test_a_workunit_by_its_name_in_the_tables(life: Life, file: int, name: str, meant: str | None) -> None:
    assert found_by(life, file, name) == meant


@pytest.mark.parametrize(
    "name, meant",
    [
        ("w~12", "w"),
        ("w~12_0", "w"),
        ("w~12_1", "w"),  # and not the workunit w_1
        ("w_1~12", "w_1"),
        ("w_1~12_0", "w_1"),
        ("w_1_0~12", "w_1_0"),
        ("x~12", None),
        ("w~13", None),
        ("w~13_0", None),
        ("w_1~2", None),
        ("w_1~2_0", None),
        ("w~1", None),
        ("w~1_0", None),
        ("w~012_0", None),
        ("w~12_00", None),
        ("w~12_0_0", None),  # an output file
        ("w~12_", None),
        ("~12_0", None),
        ("w~12~12", None),
    ],
)
def test_a_workunit_of_a_later_file_by_its_name_for_clients(life: Life, name: str, meant: str | None) -> None:
    assert found_by(life, 12, name) == meant
    assert found_by(life, 1, name) is None


# ---- A project's folder


def test_a_number_that_no_computer_can_have(made_project: MadeProject) -> None:
    for number in ("0", "9" * 19, "9" * 5000):
        status, output, fault = made_project.tools("host", number)
        assert (status, output) == (64, "") and fault.splitlines()[-1].startswith("bsched-tools")
