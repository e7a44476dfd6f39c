"""The names by which clients know the workunits and results of a file of the project.

A project may have several files of bsched, numbered from 1. In file 12 clients know workunit `w1` as `w1~12`,
and its result 0 as `w1~12_0`. In file 1 they have bsched's own names. So a name says which file it is of,
and no table is needed. An output file has the name of its result, and `_` with a number after it.

No word of bsched has the mark. So no name can be read in two ways, and no result has two names.
"""
import re
from dataclasses import dataclass

# Not an `@`: in the URL of an upload, BOINC's client takes what follows an `@` for the name of the host. So a
# proxy gets the upload, even if the client has an exception for the project's host. `~` needs no escape in a
# URL, in HTML, or within a name in bash.
MARK = "~"
FIRST, MOST_FILES = 1, 99_999
WORKUNIT = rf"([A-Za-z0-9_.-]{{1,64}}){MARK}([1-9][0-9]{{0,4}})"
MARKED_WORKUNIT = re.compile(WORKUNIT)
MARKED_RESULT = re.compile(rf"{WORKUNIT}(_(?:0|[1-9][0-9]{{0,9}}))")


@dataclass(frozen=True, slots=True)
class FileName:
    """A name as bsched has it, and the number of its file."""

    name: str
    file: int


def workunit_in_file(name: str, file: int) -> str:
    """Returns the name by which clients know a workunit of a file."""
    return name if file == FIRST else f"{name}{MARK}{file}"


def result_in_file(name: str, file: int) -> str:
    """Returns the name by which clients know a result of a file. It is that of its workunit, `_` and a
    number.
    """
    if file == FIRST:
        return name
    workunit, line, number = name.rpartition("_")
    return f"{workunit}{MARK}{file}{line}{number}"


def split_workunit(name: str) -> FileName | None:
    """Returns what a client's name of a workunit means, or None if no file has such a name. A name without
    the mark is one of file 1, as it is.
    """
    if MARK not in name:
        return FileName(name, FIRST)
    found = MARKED_WORKUNIT.fullmatch(name)
    if found is None or int(found[2]) == FIRST:
        return None
    return FileName(found[1], int(found[2]))


def split_result(name: str) -> FileName | None:
    """Returns what a client's name of a result means, or None if no file has such a name. A name without the
    mark is one of file 1, as it is.
    """
    if MARK not in name:
        return FileName(name, FIRST)
    found = MARKED_RESULT.fullmatch(name)
    if found is None or int(found[2]) == FIRST:
        return None
    return FileName(found[1] + found[3], int(found[2]))


def workunit_of_result(name: str) -> str:
    """Returns the workunit of a result. Both have the names by which clients know them."""
    return name.rpartition("_")[0]


def is_result_of(name: str, file: int) -> bool:
    """Returns whether a client's name is that of a result of a file, as far as the name says."""
    if MARK not in name:
        return file == FIRST
    found = split_result(name)
    return found is not None and found.file == file


def plain_result(name: str) -> str:
    """Returns bsched's name of a result that has a client's name. Raises ValueError if no file has it."""
    found = split_result(name)
    if found is None:
        raise ValueError(f"no file has a result {name!r}")
    return found.name


def plain_workunit(name: str) -> str:
    """Returns bsched's name of a workunit that has a client's name. Raises ValueError if no file has it."""
    found = split_workunit(name)
    if found is None:
        raise ValueError(f"no file has a workunit {name!r}")
    return found.name
