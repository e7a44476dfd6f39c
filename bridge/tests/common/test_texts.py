"""Numbers as people read them."""
import pytest

from bsched_bridge.common.texts import page_credits


@pytest.mark.parametrize(
    "millicredits, shown",
    [
        (0, "0"),
        (14_161_000, "14,161"),
        (2_907_500, "2,907.5"),
        (1, "0.001"),
        (10_000, "10"),
        (100_120, "100.12"),
    ],
)
def test_credit_on_pages_has_no_zeros_at_its_end(millicredits: int, shown: str) -> None:
    assert page_credits(millicredits) == shown
