"""Amounts as a person writes them: bytes with a unit, hours, credit, and names with parts after colons."""
import argparse
import re

UNITS = {"": 1, "k": 10**3, "M": 10**6, "G": 10**9, "T": 10**12}
BYTES = re.compile(r"([0-9]{1,18})(\.[0-9]{1,9})?\s?(|k|K|M|G|T)B?")
MOST_BYTES = 10**18
MOST_HOURS = 10_000.0
MOST_CREDIT = 100_000.0  # bsched's limit of a result


def nbytes(text: str) -> int:
    """Reads a number of bytes, such as 500M or 1.5G."""
    match = BYTES.fullmatch(text)
    if match is not None:
        size = round(float(match[1] + (match[2] or "")) * UNITS[match[3].replace("K", "k")])
        if 0 <= size <= MOST_BYTES:
            return size
    raise argparse.ArgumentTypeError(f"{text!r} is no number of bytes: write one such as 800k, 500M or 2G")


def number_within(text: str, least: float, most: float, what: str) -> float:
    """Reads a number within a range."""
    try:
        value = float(text)
    except ValueError:
        value = least - 1
    if not least <= value <= most:
        raise argparse.ArgumentTypeError(f"{text!r} is no {what}: write a number from {least:g} to {most:g}")
    return value


def hours(text: str) -> float:
    """Reads a number of hours."""
    return number_within(text, 0.0001, MOST_HOURS, "number of hours")


def days(text: str) -> float:
    """Reads a number of days."""
    return number_within(text, 0.001, 1000.0, "number of days")


def credit(text: str) -> float:
    """Reads an amount of credit."""
    return number_within(text, 0.0, MOST_CREDIT, "credit")


def quorum(text: str) -> int:
    """Reads how many results must agree."""
    if not re.fullmatch("[1-9][0-9]?", text) or int(text) > 20:
        raise argparse.ArgumentTypeError(f"{text!r} is no quorum: write a whole number from 1 to 20")
    return int(text)


def errors(text: str) -> int:
    """Reads how many client errors a workunit may have."""
    if not re.fullmatch("0|[1-9][0-9]?|100", text):
        raise argparse.ArgumentTypeError(f"{text!r} is no number of errors: write a whole one from 0 to 100")
    return int(text)


def factor(text: str) -> int:
    """Reads after how many times its hours a job is ended."""
    if not re.fullmatch("[1-9][0-9]{0,5}|1000000", text):
        raise argparse.ArgumentTypeError(f"{text!r} is no factor: write a whole number from 1 to 1000000")
    return int(text)


def slice_size(text: str) -> int:
    """Reads how many workunits of a batch are imported at once."""
    if not re.fullmatch("[1-9][0-9]{0,5}", text):
        raise argparse.ArgumentTypeError(f"{text!r} is no size of a slice: write a whole number from 1 on")
    return int(text)


def bytes_text(size: int) -> str:
    """Returns a number of bytes for a person."""
    for unit in ("T", "G", "M", "k"):
        if size >= UNITS[unit]:
            return f"{size / UNITS[unit]:.1f} {unit}B"
    return f"{size} bytes"


def count_text(count: int, noun: str) -> str:
    """Returns a count with its noun."""
    return f"{count:,} {noun}" if count == 1 else f"{count:,} {noun}s"
