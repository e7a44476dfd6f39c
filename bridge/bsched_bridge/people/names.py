"""Names of users and teams: what people can see, tell apart and read on one line.

Anybody can choose a name. So characters that can't be seen, or that turn the text around them, are left out,
and a name needs a letter or a digit.
"""
import re
import unicodedata

from bsched_files.texts import cut_to_bytes

MOST_NAME = 64  # bytes of UTF-8, as bsched accepts them
MOST_MARKS = 4  # combining marks on a character
# Unicode's Default_Ignorable_Code_Point (DerivedCoreProperties), without those of category Cf
IGNORABLE = re.compile(
    "[\u034f\u115f\u1160\u17b4\u17b5\u180b-\u180f\u2065\u3164\ufe00-\ufe0f\uffa0\ufff0-\ufff8"
    "\U000e0000-\U000e0fff]"
)
# what becomes a blank; Braille has a sign without a dot
BLANK = re.compile("[\\s\x00-\x1f\x7f-\x9f\u2800\ufffd]+")
# Small letters of Greek and Cyrillic that look like Latin ones, or whose capitals do
LOOKS_LIKE = str.maketrans("авекмнорстухіјѕαβεηικμνορτυχ", "abekmhopctyxijsabehikmnoptyx")


def clean_name(name: str) -> str:
    """Returns a name in the form that bsched accepts, on one line. It is empty if nothing is left that people
    can read.
    """
    seen = "".join(one for one in name if unicodedata.category(one) != "Cf")
    text = without_many_marks(BLANK.sub(" ", IGNORABLE.sub("", seen)).strip())
    text = cut_to_bytes(text, MOST_NAME).strip()
    return text if any(one.isalnum() for one in text) else ""


def without_many_marks(text: str) -> str:
    """Returns a text with at most MOST_MARKS combining marks on a character. A mark at the front is left out,
    since it would change what is before the name.
    """
    kept, marks = list[str](), MOST_MARKS
    for one in text:
        marks = marks + 1 if unicodedata.category(one) in ("Mn", "Me") else 0
        if marks <= MOST_MARKS:
            kept.append(one)
    return "".join(kept)


def fold(name: str) -> str:
    """Returns what names that look alike have in common."""
    folded = unicodedata.normalize("NFKC", unicodedata.normalize("NFKC", name).casefold())
    return " ".join(IGNORABLE.sub("", folded).translate(LOOKS_LIKE).split())
