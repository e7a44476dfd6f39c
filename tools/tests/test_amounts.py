"""Amounts as a person writes them."""
import pytest
from work_project import WorkProject
from work_tried import is_refused


@pytest.mark.parametrize(
    "option, value",
    [("--hours", "none"), ("--hours", "0"), ("--memory", "2 dozen"), ("--quorum", "0"), ("--credit", "-1")],
)
def test_amounts_that_are_none(work: WorkProject, option: str, value: str) -> None:
    status, output, fault = work.submit(f"{option}={value}", work.inputs)
    assert (status, output) == (64, "") and f"argument {option}: {value!r} is no" in fault


def test_hours_that_give_more_credit_than_a_result_can(work: WorkProject) -> None:
    work.make_inputs(1)
    before = work.state()
    fault = "--hours 3001: by the hours a result gets more than 100,000 credits: give --credit"
    is_refused(work, work.submit("--hours", "3001", work.inputs), fault, before)
    assert work.submit("--hours", "10000", "--credit", "100000", work.inputs)[0] == 0
