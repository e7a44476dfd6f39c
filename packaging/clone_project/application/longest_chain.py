#!/usr/bin/python3
"""Finds the number in a range that has the longest Collatz chain.

A chain leads from a number to its half if it is even, and else to three times the number plus one, until it
is 1. The file `in` has the first and the last number of the range. The file `out` gets the smallest number
with the longest chain, and the number of its steps.
"""
from pathlib import Path


def steps_of(number: int) -> int:
    """Returns how many steps the chain of a number has."""
    steps = 0
    while number != 1:
        number = 3 * number + 1 if number & 1 else number >> 1
        steps += 1
    return steps


def longest(first: int, last: int) -> tuple[int, int]:
    """Returns the smallest number of a range with the longest chain, and the number of its steps."""
    best, most = first, -1
    for number in range(first, last + 1):
        steps = steps_of(number)
        if steps > most:
            best, most = number, steps
    return best, most


def main() -> None:
    """Reads the range, and writes the answer. The last file says that the program came to its end."""
    first, last = map(int, Path("in").read_text().split())
    best, most = longest(first, last)
    Path("out").write_text(f"{best} {most}\n")
    Path("boinc_finish_called").write_text("0\n")


if __name__ == "__main__":
    main()
