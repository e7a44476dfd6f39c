"""Tests the names by which clients know the workunits and results of a file."""
import pytest
from hypothesis import example, given, strategies as st

from bsched_files.file_names import (
    FIRST,
    MARK,
    MOST_FILES,
    FileName,
    is_result_of,
    plain_result,
    plain_workunit,
    result_in_file,
    split_result,
    split_workunit,
    workunit_in_file,
    workunit_of_result,
)
from bsched_files.texts import WORD, is_word

WORDS = st.from_regex(WORD, fullmatch=True)
NUMBERS = st.integers(0, 10**9)
FILES = st.integers(FIRST, MOST_FILES)
# texts that are often close to a name
TEXTS = st.lists(
    st.sampled_from([MARK, "_", "w", "1", "12", "0", "00", "-", "+", "@", ".", " ", "\n", "١", "１", "²"])
    | st.text()
).map("".join)


def test_a_name_says_its_file() -> None:
    assert workunit_in_file("w1", 12) == "w1~12"
    assert result_in_file("w1_0", 12) == "w1~12_0"
    assert result_in_file("a_1_0", 2) == "a_1~2_0"  # the workunit a_1
    assert split_workunit("w1~12") == FileName("w1", 12)
    assert split_result("w1~12_0") == FileName("w1_0", 12)


@given(WORDS, NUMBERS)
def test_names_of_file_1_are_those_of_bsched(word: str, number: int) -> None:
    assert workunit_in_file(word, FIRST) == word
    assert result_in_file(f"{word}_{number}", FIRST) == f"{word}_{number}"
    assert split_workunit(word) == FileName(word, FIRST)
    assert split_result(f"{word}_{number}") == FileName(f"{word}_{number}", FIRST)


@given(WORDS, NUMBERS, FILES)
@example("_" * 64, 0, MOST_FILES)
@example("1_1", 1, 2)
def test_what_went_out_comes_back(word: str, number: int, file: int) -> None:
    unit, result = workunit_in_file(word, file), result_in_file(f"{word}_{number}", file)
    assert split_workunit(unit) == FileName(word, file) and plain_workunit(unit) == word
    assert split_result(result) == FileName(f"{word}_{number}", file)
    assert plain_result(result) == f"{word}_{number}"
    assert workunit_of_result(result) == unit
    assert [one for one in (1, 2, 12, file, MOST_FILES) if is_result_of(result, one)][0] == file


@given(WORDS, WORDS, NUMBERS, NUMBERS, FILES, FILES)
def test_two_results_have_no_name_in_common(
    word: str, other: str, number: int, further: int, file: int, other_file: int
) -> None:
    one, two = (f"{word}_{number}", file), (f"{other}_{further}", other_file)
    assert (result_in_file(*one) == result_in_file(*two)) == (one == two)
    assert (workunit_in_file(word, file) == workunit_in_file(other, other_file)) == (
        (word, file) == (other, other_file)
    )


@given(TEXTS)
@example("w~12_0\n")
@example("w~1２_0")
def test_a_name_is_read_in_one_way_or_not_at_all(text: str) -> None:
    """What is read has just this name, and says a file."""
    result, unit = split_result(text), split_workunit(text)
    if MARK not in text:
        assert result == unit == FileName(text, FIRST)
        return
    assert result is None or (result_in_file(result.name, result.file) == text and FIRST < result.file)
    assert unit is None or (workunit_in_file(unit.name, unit.file) == text and FIRST < unit.file)
    assert result is None or unit is None
    for found in (result, unit):
        assert found is None or (found.file <= MOST_FILES and MARK not in found.name)
    assert unit is None or is_word(unit.name)


@pytest.mark.parametrize(
    "name",
    [
        "w~0_0",
        "w~1_0",  # names of file 1 have no mark
        "w~02_0",
        "w~+2_0",
        "w~-2_0",
        "w~ 2_0",
        "w~2 _0",
        "w~100000_0",  # too large
        f"w~{10**30}_0",
        "w~１２_0",  # digits of another script
        "w~١٢_0",
        "w~²_0",
        "w~12_00",
        "w~12_-1",
        "w~12_",
        "w~12",  # a workunit
        "w_0~12",
        "w~12_0_0",  # an output file
        "~12_0",
        "w~_0",
        "w~~12_0",
        "w~12~12_0",
        "w~12_0~12",
        "w@12_0~2_0",
        "w~12_0\n",
        f"{'w' * 65}~12_0",
    ],
)
def test_what_no_file_has(name: str) -> None:
    assert split_result(name) is None
    assert not any(is_result_of(name, file) for file in (1, 2, 12))
    with pytest.raises(ValueError):
        plain_result(name)


@pytest.mark.parametrize("name", ["w~1", "w~012", "w~12_0", "w~", "~12", "w~12~3", "w~100000", "w~１２"])
def test_what_no_file_has_as_a_workunit(name: str) -> None:
    assert split_workunit(name) is None
    with pytest.raises(ValueError):
        plain_workunit(name)


def test_no_word_has_the_mark() -> None:
    assert not is_word(f"w{MARK}2")
