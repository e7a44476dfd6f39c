"""What a file of comma-separated values must be so that bsched imports it (docs/PROFILE.md, "Imports").

bsched answers a faulty file with the number of the first faulty row and column. Here each fault has its line,
the column's name, the value, and what the value must be.
"""
import csv
import io
import re
from collections.abc import Callable, Iterator
from dataclasses import dataclass
from itertools import islice
from pathlib import Path

from bsched_files.faults import Fault
from bsched_files.texts import WORD

MOST_BYTES = 1_048_576  # of an import
MOST_FIELD = 4 * MOST_BYTES  # a longer field ends the reading with a fault
COUNT = re.compile("0|[1-9][0-9]{0,18}")
AGREEMENT = re.compile("within:(0|[1-9][0-9]{0,9})")
MOST_DISTANCE = 1_000_000_000
LARGE = 10**18
MOST_FAULTS = 20
Check = Callable[[str, list[str]], str | None]


@dataclass(frozen=True, slots=True)
class Kind:
    """A kind of import: its columns with their checks, and how many of them are the name of a row."""

    name: str
    columns: dict[str, Check]
    names: int
    further: str | None = None  # the last column, which may be absent
    app: int | None = None  # the column with the name of an application

    def headers(self) -> list[list[str]]:
        """Returns the headers that a file may have."""
        whole = list(self.columns)
        return [whole] if self.further is None else [whole[:-1], whole]


@dataclass(frozen=True, slots=True)
class Row:
    """A record of a file: the line on which it begins, and its fields."""

    line: int
    fields: list[str]


@dataclass(frozen=True, slots=True)
class ImportFile:
    """A file that can be imported, if nothing else is in the way."""

    path: Path
    kind: Kind
    header: list[str]
    rows: list[Row]


def word(value: str, _row: list[str]) -> str | None:
    """Checks a word."""
    if WORD.fullmatch(value):
        return None
    return "must be 1 to 64 letters, digits, '_', '-' or '.'"


def name_of_user(value: str, _row: list[str]) -> str | None:
    """Checks the name of a user."""
    return None if 1 <= len(value.encode(errors="surrogatepass")) <= 64 else "must have 1 to 64 bytes"


def agreement(value: str, _row: list[str]) -> str | None:
    """Checks the agreement of an application."""
    match = AGREEMENT.fullmatch(value)
    if value == "exact" or match and int(match[1]) <= MOST_DISTANCE:
        return None
    return f"must be exact, or within:n with a whole number n from 0 to {MOST_DISTANCE}"


def mark(value: str, _row: list[str]) -> str | None:
    """Checks the mark of a workunit."""
    return None if value in ("0", "1") else "must be 0 or 1"


def whole(least: int | str, most: int | str) -> Check:
    """Returns the check for a whole number within a range. An end of the range can be another column."""

    def check(value: str, row: list[str]) -> str | None:
        """Checks a number."""
        ends: list[int] = []
        for end in (least, most):
            limit = row[WORKUNIT_COLUMNS.index(end)] if isinstance(end, str) else str(end)
            ends.append(int(limit) if COUNT.fullmatch(limit) else 0)
        if COUNT.fullmatch(value) and ends[0] <= int(value) <= ends[1]:
            return None
        low = f"{least}, which is {ends[0]}," if isinstance(least, str) else least
        return f"must be a whole number from {low} to {most}"

    return check


WORKUNIT_COLUMNS = [
    "name",
    "app",
    "min_quorum",
    "target_nresults",
    "max_error_results",
    "max_total_results",
    "max_success_results",
    "delay_bound",
    "rsc_fpops_est",
    "rsc_memory_bound",
    "rsc_disk_bound",
    "credit",
    "marked",
]
WORKUNIT_CHECKS: list[Check] = [
    word,
    word,
    whole(1, 100),
    whole("min_quorum", 100),
    whole(0, 100),
    whole("target_nresults", 100),
    whole(0, 100),
    whole(1, 100_000_000),
    whole(1, LARGE),
    whole(0, LARGE),
    whole(0, LARGE),
    whole(0, 100_000_000),
    mark,
]
# in the order in which they are imported
KINDS = {
    kind.name: kind
    for kind in (
        Kind("accounts", {"authenticator": word, "name": name_of_user}, 1),
        Kind("apps", {"name": word, "agreement": agreement}, 1),
        Kind(
            "versions",
            {
                "app": word,
                "platform": word,
                "version_num": whole(1, 1_000_000),
                "version_class": word,
            },
            3,
            "version_class",
            0,
        ),
        Kind("workunits", dict(zip(WORKUNIT_COLUMNS, WORKUNIT_CHECKS)), 1, "marked", 1),
    )
}


def records_of(text: str) -> Iterator[Row]:
    """Yields the records of a text. Empty lines are passed over."""
    csv.field_size_limit(MOST_FIELD)
    reader, line = csv.reader(io.StringIO(text, newline="")), 1
    try:
        for fields in reader:
            if fields:
                yield Row(line, fields)
            line = reader.line_num + 1
    except csv.Error as error:
        raise Fault(f"line {line}: {error}") from None


def shown(value: str) -> str:
    """Returns a value as it is printed, cut if it is long."""
    return repr(value if len(value) <= 60 else f"{value[:57]}...")


def kind_of(header: list[str]) -> Kind | None:
    """Returns the kind whose header this is, or is most alike; None if no column is known."""
    found = max(
        KINDS.values(),
        key=lambda kind: (header in kind.headers(), len(set(header) & set(kind.columns)), -len(kind.columns)),
    )
    return found if set(header) & set(found.columns) else None


def header_fault(row: Row, kind: Kind | None) -> str | None:
    """Returns what is wrong with a header, or None."""
    if kind is not None and row.fields in kind.headers():
        return None
    where = f"line {row.line}: "
    for other, name in ((";", "semicolons"), ("\t", "tabs")):
        if len(row.fields) == 1 and other in row.fields[0]:
            return f"{where}{name} separate the fields: write commas"
    headers = [",".join(header) for one in ([kind] if kind else KINDS.values()) for header in one.headers()]
    if kind is None:
        return f"{where}the first line must name the columns: {' or '.join(headers)}"
    for header in kind.headers():
        if len(row.fields) == len(header):
            at = next(at for at, (field, name) in enumerate(zip(row.fields, header)) if field != name)
            return f"{where}column {at + 1} is {shown(row.fields[at])}, and must be {header[at]!r}"
    wanted = " or ".join(str(len(header)) for header in kind.headers())
    return (
        f"{where}there are {len(row.fields)} columns, and {kind.name} have {wanted}: {' or '.join(headers)}"
    )


def row_faults(row: Row, header: list[str], kind: Kind) -> Iterator[str]:
    """Yields what is wrong with a row."""
    if len(row.fields) != len(header):
        yield f"line {row.line}: there are {len(row.fields)} fields, and the first line has {len(header)}"
        return
    for name, value in zip(header, row.fields):
        fault = kind.columns[name](value, row.fields)
        if any("\udc80" <= character <= "\udcff" for character in value):
            fault = "must be UTF-8"
        if fault is not None:
            yield f"line {row.line}: {name} is {shown(value)}, and {fault}"


def double_faults(file: ImportFile) -> Iterator[str]:
    """Yields each name that an earlier row has."""
    seen: dict[tuple[str, ...], int] = {}
    for row in file.rows:
        name = tuple(row.fields[: file.kind.names])
        if name in seen:
            yield f"line {row.line}: {' '.join(name)} is already on line {seen[name]}"
        seen.setdefault(name, row.line)


def read_import(path: Path, text: bytes) -> ImportFile | str:
    """Returns the file with a text, or what is wrong with its first line."""
    try:
        rows = list(records_of(text.decode(errors="surrogateescape").removeprefix("\ufeff")))
    except Fault as fault:
        return str(fault)
    if not rows:
        return (
            "it is empty: the first line names the columns (`curl -d @FILE` removes line ends: use "
            "--data-binary, or `bsched-tools import`)"
        )
    kind = kind_of(rows[0].fields)
    wrong = header_fault(rows[0], kind)
    if wrong is not None:
        return wrong
    if kind is None:
        raise AssertionError("a header without a fault has a kind")
    return ImportFile(path, kind, rows[0].fields, rows[1:])


def faults_of_rows(file: ImportFile) -> Iterator[str]:
    """Yields what is wrong with the rows of a file, in the order of the file, and then double names."""
    is_good = True
    for row in file.rows:
        for fault in row_faults(row, file.header, file.kind):
            is_good = False
            yield fault
    if is_good:
        yield from double_faults(file)


def read_file(path: Path) -> bytes:
    """Returns the bytes of a file."""
    try:
        return path.read_bytes()
    except OSError as error:
        raise Fault(f"{path}: {error.strerror}") from None


def checked(path: Path) -> tuple[ImportFile | None, list[str]]:
    """Returns a file and what is wrong with it: at most MOST_FAULTS lines. If the first line is wrong, there
    is no file."""
    file = read_import(path, read_file(path))
    if isinstance(file, str):
        return None, [file]
    faults = list(islice(faults_of_rows(file), MOST_FAULTS + 1))
    if len(faults) > MOST_FAULTS:
        faults[MOST_FAULTS:] = ["there are more faults"]
    return file, faults
