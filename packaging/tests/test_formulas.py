"""Tests the formulas of packaging/try, and how answers to them are judged."""
import pytest
from debian_trial.formulas import VARIABLES, Formula, formulas
from debian_trial.second_week import ALL, ONE_UNSATISFIABLE_IN

EITHER = Formula(((1, 2), (-1, 2)))  # 2 must hold
NEITHER = Formula(((1, 2), (-1, 2), (1, -2), (-1, -2)))


@pytest.mark.parametrize(
    "formula, text, is_right",
    [
        (EITHER, "SAT\n1 2 0\n", True),
        (EITHER, "SAT\n-1 2 0\n", True),
        (EITHER, "SAT\n1 -2 0\n", False),
        (EITHER, "SAT\n1 0\n", False),
        (EITHER, "SAT\n1 -1 2 0\n", False),
        (EITHER, "SAT\n1 2\n", False),
        (EITHER, "UNSAT\n", False),
        (EITHER, "", False),
        (NEITHER, "UNSAT\n", True),
        (NEITHER, "UNSAT\nmore\n", False),
        (NEITHER, "SAT\n1 2 0\n", False),
    ],
)
def test_an_answer_is_judged(formula: Formula, text: str, is_right: bool) -> None:
    assert formula.is_answered(text) == is_right


def test_a_formula_in_dimacs() -> None:
    assert EITHER.text == f"p cnf {VARIABLES} 2\n1 2 0\n-1 2 0\n"


def test_both_answers_occur_and_each_trial_has_the_same_formulas() -> None:
    """More than half of a cheat's answers must be wrong, so that its computer is named."""
    made = formulas(ALL, ONE_UNSATISFIABLE_IN)
    assert made == formulas(ALL, ONE_UNSATISFIABLE_IN) and len(set(made)) == ALL
    can_hold = sum(formula.can_hold for formula in made)
    assert ALL * 3 // 4 < can_hold < ALL - 3
