"""The output files of an application: what its program writes and the client uploads.

The catalogue lists them. A file of a result has a name of its own in the project, such as `w1_0_2`: the name
of the result, and the file's place in the list.
"""
import json
import re
from dataclasses import asdict
from functools import lru_cache

from bsched_files.catalogue import OutputFile


MOST_LISTS = 100  # of output files whose text is kept
# the client takes no name with two dots in a row, which a workunit may have
DOT_BEFORE_DOT = re.compile(r"\.(?=\.)")


def upload_name(result: str, place: int) -> str:
    """Returns the name of the file at a place of the list, counted from 0. Two results have no name in
    common: no name of a result has a plus sign.
    """
    return f"{DOT_BEFORE_DOT.sub('.+', result)}_{place}"


def result_of(name: str) -> str:
    """Returns the result whose output file has a name."""
    return name.rpartition("_")[0].replace("+", "")


@lru_cache(MOST_LISTS)
def as_text(files: tuple[OutputFile, ...]) -> str:
    """Returns a list of output files as a text."""
    return json.dumps([asdict(file) for file in files])


def of_text(text: str) -> tuple[OutputFile, ...]:
    """Returns the list of output files in a text."""
    return tuple(OutputFile(**members) for members in json.loads(text))
