"""The formats of plain.py: JSON, requests, imports and instants, as docs/PROFILE.md states them.

It reads the instants that Python's datetime reads.
"""
import csv
import io
import json
import re
from collections.abc import Callable
from datetime import datetime, timedelta, timezone
from typing import Any

Record = dict[str, Any]  # a request, with defaults filled in
ValueTest = Callable[[Any], bool]  # of a JSON value
ColumnTest = Callable[[list[str], str], bool]  # of a field of a row, given the row, too
# The columns of a kind with their tests, how many columns form the name, the column of the application, and
# the maximum number of rows.
Kind = tuple[dict[str, ColumnTest], int, int | None, int]


class Refused(Exception):
    """An answer other than 200."""

    def __init__(self, status: int, number: int, name: str, **more: object) -> None:
        self.status = status
        self.body = text({"error": name, "number": number, **more})


# ---- Texts

# writes JSON without blanks, members in byte order
text = json.JSONEncoder(ensure_ascii=False, sort_keys=True, separators=(",", ":")).encode

WORD = re.compile(r"[A-Za-z0-9_.-]{1,64}")
COUNT = re.compile(r"0|[1-9][0-9]{0,18}")
NUMBER = re.compile(r"0|-?[1-9][0-9]{0,17}")
QUOTED = re.compile(r'"(?:[^"\\]|\\.)*"')
ESCAPE = re.compile(r"\\(?:u[dD][89abAB]..\\u[dD][c-fC-F]..|(u[dD][89a-fA-F])|.)")


def is_word(value: object) -> bool:
    """Returns whether a JSON value is a word."""
    return isinstance(value, str) and WORD.fullmatch(value) is not None


def is_text(low: int, high: int) -> ValueTest:
    """Returns the test for a text whose number of bytes is within a range."""
    return lambda value: isinstance(value, str) and low <= len(value.encode()) <= high


def is_whole(low: int, high: int) -> ValueTest:
    """Returns the test for a whole number within a range."""
    return lambda value: type(value) is int and low <= value <= high


def is_list(most: int, test: ValueTest) -> ValueTest:
    """Returns the test for an array of at most `most` values that all pass `test`."""
    return lambda value: isinstance(value, list) and len(value) <= most and all(map(test, value))


def decimal(number: str) -> float:
    """Returns the float of a JSON number with point or exponent. Raises ValueError if it is too large."""
    value = float(number)
    if value in (float("inf"), float("-inf")):
        raise ValueError(number)
    return value


def whole(number: str) -> int | float:
    """Returns the value of a JSON number with no point or exponent. -0 is not whole, so it gives a float."""
    return decimal(number) if number == "-0" or len(number) > 300 else int(number)


def no_constant(name: str) -> None:
    """Raises ValueError: NaN and Infinity are not JSON."""
    raise ValueError(name)


DECODER = json.JSONDecoder(parse_float=decimal, parse_int=whole, parse_constant=no_constant)


def depth(text: str) -> int:
    """Returns how deep arrays and objects are nested in a JSON text."""
    deepest = level = 0
    unquoted = QUOTED.sub("", text) if "\\" in text else "".join(text.split('"')[::2])
    for bracket in re.findall(r"[\[\]{}]", unquoted):
        level += 1 if bracket in "[{" else -1
        deepest = max(deepest, level)
    return deepest


def read_json(text: str) -> Any:
    """Returns the value of a JSON text. Raises ValueError if it is not JSON, has half a surrogate pair, or is
    nested too deep."""
    try:
        value = DECODER.decode(text)
    except RecursionError:
        raise ValueError(text) from None
    if "\\u" in text and any(escape[1] for escape in ESCAPE.finditer(text)):
        raise ValueError(text)
    if text.count("[") + text.count("{") > 127 and depth(text) > 127:
        raise ValueError(text)
    return value


# ---- The request

NEEDED, OPTIONAL = object(), object()
is_listed, is_output, is_exit_status = is_text(1, 254), is_text(0, 1024), is_whole(-(2**31), 2**31 - 1)


def is_report(value: object) -> bool:
    """Returns whether a value is an element of `results`."""
    if not isinstance(value, dict):
        return False
    return (
        is_listed(value.get("name"))
        and is_exit_status(value.get("exit_status"))
        and is_output(value.get("output", ""))
    )


# for each member, in the order of the checks: its test, and its value if it is absent
MEMBERS: dict[str, tuple[ValueTest, Any]] = {
    "authenticator": (is_word, NEEDED),
    "hostid": (is_whole(0, 2**31 - 1), 0),
    "rpc_seqno": (is_whole(0, 2**31 - 1), NEEDED),
    "host_info": (lambda value: isinstance(value, dict), NEEDED),
    "host_info.host_cpid": (is_word, NEEDED),
    "host_info.p_fpops": (is_whole(1, 10**18), NEEDED),
    "host_info.m_nbytes": (is_whole(0, 10**18), NEEDED),
    "host_info.d_free": (is_whole(0, 10**18), NEEDED),
    "platform_name": (is_word, NEEDED),
    "alt_platforms": (is_list(7, is_word), []),
    "work_req_seconds": (is_whole(0, 10**9), 0),
    "other_results": (is_list(1024, is_listed), OPTIONAL),
    "results": (is_list(256, is_report), []),
}


def record_of(body: bytes) -> Record:
    """Returns the record that a request says, with defaults filled in. Raises Refused at the first fault."""
    if len(body) > 262144:
        raise Refused(413, 5, "too_large")
    try:
        fields = read_json(body.decode())
    except ValueError:
        raise Refused(400, 6, "bad_json") from None
    if not isinstance(fields, dict):
        raise Refused(400, 6, "bad_json")
    record: Record = {}
    info: Record = {}
    for member, (test, default) in MEMBERS.items():
        inner = member.startswith("host_info.")
        value = (fields["host_info"] if inner else fields).get(member.removeprefix("host_info."), default)
        if value is NEEDED or (value is not default and not test(value)):
            raise Refused(400, 7, "bad_member", member=member)
        if value is not OPTIONAL:
            (info if inner else record)[member.removeprefix("host_info.")] = value
    results = [{"output": "", **report} for report in record["results"]]
    record["results"] = [
        {name: report[name] for name in ("exit_status", "name", "output")} for report in results
    ]
    return {**record, "host_info": info}


# ---- Imports


def is_count(low: int, high: int) -> ColumnTest:
    """Returns the test of a column that holds a count within a range."""
    return lambda row, value: COUNT.fullmatch(value) is not None and low <= int(value) <= high


def is_count_from(column: int, high: int) -> ColumnTest:
    """Returns such a test, whose lower limit is the value of an earlier column."""
    return lambda row, value: is_count(int(row[column]), high)(row, value)


def is_name(row: list[str], value: str) -> bool:
    """The test of a column that holds a word."""
    return is_word(value)


def is_user_name(row: list[str], value: str) -> bool:
    """The test of a column that holds the name of a user."""
    return is_text(1, 64)(value)


def is_mark(row: list[str], value: str) -> bool:
    """The test of a column that holds a mark."""
    return value in ("0", "1")


def is_agreement(row: list[str], value: str) -> bool:
    """The test of a column that holds an agreement: how outputs are compared."""
    return value == "exact" or (value.startswith("within:") and is_count(0, 10**9)(row, value[7:]))


KINDS: dict[str, Kind] = {
    "accounts": ({"authenticator": is_name, "name": is_user_name}, 1, None, 10000),
    "apps": ({"name": is_name, "agreement": is_agreement}, 1, None, 100),
    "versions": ({"app": is_name, "platform": is_name, "version_num": is_count(1, 10**6)}, 3, 0, 1000),
    "workunits": (
        {
            "name": is_name,
            "app": is_name,
            "min_quorum": is_count(1, 100),
            "target_nresults": is_count_from(2, 100),
            "max_error_results": is_count(0, 100),
            "max_total_results": is_count_from(3, 100),
            "max_success_results": is_count(0, 100),
            "delay_bound": is_count(1, 10**8),
            "rsc_fpops_est": is_count(1, 10**18),
            "rsc_memory_bound": is_count(0, 10**18),
            "rsc_disk_bound": is_count(0, 10**18),
            "credit": is_count(0, 10**8),
        },
        1,
        1,
        200000,
    ),
}
# for some kinds: the last column of a longer header, its test, and its value under the shorter header
FURTHER: dict[str, tuple[str, ColumnTest, Callable[[list[str]], str]]] = {
    "versions": ("version_class", is_name, lambda row: row[1]),
    "workunits": ("marked", is_mark, lambda row: "0"),
}
csv.field_size_limit(2**21)


def rows_of(kind: str, body: str) -> list[list[str]]:
    """Returns an import's data rows as lists of texts. If the longer header's column is absent, it is
    added."""
    columns = KINDS[kind][0]
    further = FURTHER.get(kind)
    lines = io.StringIO(body.removeprefix("\ufeff"), newline="")
    records = [record for record in csv.reader(lines) if record]
    is_longer = bool(records) and further is not None and len(records[0]) == len(columns) + 1
    if further is not None and is_longer:
        columns = {**columns, further[0]: further[1]}
    if not records or len(records[0]) != len(columns):
        raise Refused(400, 14, "bad_csv", row=0, column=0)
    for column, (name, value) in enumerate(zip(columns, records[0]), 1):
        if value != name:
            raise Refused(400, 14, "bad_csv", row=0, column=column)
    for number, row in enumerate(records[1:], 1):
        if len(row) != len(columns):
            raise Refused(400, 14, "bad_csv", row=number, column=0)
        for column, (is_good, value) in enumerate(zip(columns.values(), row), 1):
            if not is_good(row, value):
                raise Refused(400, 14, "bad_csv", row=number, column=column)
    if further is None or is_longer:
        return records[1:]
    return [[*row, further[2](row)] for row in records[1:]]


# ---- Instants


def moment(instant: str) -> int:
    """Returns the seconds of an instant since 1970. Raises ValueError if it is none, or out of range."""
    since, second = datetime.fromisoformat(instant), timedelta(seconds=1)
    if since.tzinfo is None or since.microsecond:
        raise ValueError(instant)
    seconds = (since - datetime(1970, 1, 1, tzinfo=timezone.utc)) // second
    if not 0 <= seconds <= 250_000_000_000:
        raise ValueError(instant)
    return seconds
