"""Numbers as people read them, and what the columns of a table of computers count."""
from bsched_files.texts import credits_text

from .languages import gettext_noop

# what the columns of a table of computers count
RESULT_WORDS = gettext_noop(
    "Results are out until they are reported or their deadline passes; those whose deadline passed are late. "
    "Those that wait are reported, and their workunit is not decided. Done are those that were found valid; "
    "failed are errors, and results found invalid."
)


def without_zeros(number: str) -> str:
    """Returns a number without the zeros at the end of its decimals."""
    return number.rstrip("0").rstrip(".") if "." in number else number


def page_credits(millicredits: int) -> str:
    """Returns credit as text for pages."""
    return without_zeros(credits_text(millicredits))


def bytes_text(number: int) -> str:
    """Returns a number of bytes as text."""
    return f"{number / 1e9:,.1f} GB"
