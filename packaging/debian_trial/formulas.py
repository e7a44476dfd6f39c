"""Small random formulas for a program that decides whether they can be satisfied, and the answers to them."""
import itertools
import random
from dataclasses import dataclass

VARIABLES = 10
FEW_CLAUSES, MANY_CLAUSES = 20, 90  # nearly all with so few can be satisfied, and nearly none with so many


@dataclass(frozen=True, slots=True)
class Formula:
    """Clauses. One literal of each must hold: 3 is the third variable, and -3 its negation."""

    clauses: tuple[tuple[int, ...], ...]

    @property
    def text(self) -> str:
        """The formula in the format DIMACS."""
        lines = [" ".join(map(str, (*clause, 0))) for clause in self.clauses]
        return "\n".join([f"p cnf {VARIABLES} {len(lines)}", *lines, ""])

    def holds(self, literals: set[int]) -> bool:
        """Returns whether literals, one of each variable, satisfy it."""
        return all(literals.intersection(clause) for clause in self.clauses)

    @property
    def can_hold(self) -> bool:
        """Whether any literals satisfy it: all are tried."""
        variables = range(1, VARIABLES + 1)
        signs = itertools.product((1, -1), repeat=VARIABLES)
        return any(self.holds({sign * one for sign, one in zip(row, variables)}) for row in signs)

    def is_answered(self, text: str) -> bool:
        """Returns whether a text is a right answer: UNSAT, or SAT and literals that satisfy it."""
        words = text.split()
        if words == ["UNSAT"]:
            return not self.can_hold
        if words[:1] != ["SAT"] or words[-1] != "0":
            return False
        literals = {int(word) for word in words[1:-1]}
        return len({abs(one) for one in literals}) == len(literals) and self.holds(literals)


def random_formula(source: random.Random, clauses: int) -> Formula:
    """Returns a formula with clauses of three literals."""
    variables = range(1, VARIABLES + 1)
    rows = (source.sample(variables, 3) for _ in range(clauses))
    return Formula(tuple(tuple(source.choice((1, -1)) * one for one in row) for row in rows))


def formulas(count: int, one_in: int) -> list[Formula]:
    """Returns formulas, always the same ones. One in so many can hardly be satisfied, the others easily."""
    source = random.Random(2026)
    many = (MANY_CLAUSES if number % one_in == 0 else FEW_CLAUSES for number in range(count))
    return [random_formula(source, clauses) for clauses in many]
