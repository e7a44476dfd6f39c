"""Tests that the output of a result is read as it was written."""
import hashlib
from pathlib import Path

from hypothesis import given
from hypothesis import strategies as st

from bsched_files.catalogue import FILE_NAME, MOST_OUTPUTS, OutputFile
from bsched_files.texts import MOST_OUTPUT
from bsched_files.uploads import StoredOutput, compared_text, files_in, stored_path

FILES = st.lists(
    st.tuples(st.from_regex(FILE_NAME, fullmatch=True), st.integers(0, 10**12), st.booleans()),
    max_size=MOST_OUTPUTS,
    unique_by=lambda one: one[0],
)


@given(FILES)
def test_what_is_written_is_read(files: list[tuple[str, int, bool]]) -> None:
    listed = tuple(OutputFile(name, 1, True, True) for name, _, _ in files)
    stored = {
        name: StoredOutput(nbytes, hashlib.sha256(name.encode()).hexdigest())
        for name, nbytes, is_there in files
        if is_there
    }
    text = compared_text(listed, stored)
    assert len(text.encode()) <= MOST_OUTPUT
    is_whole = not text.startswith(f"{len(files)} files sha256:")
    assert dict(files_in(text)) == (stored if is_whole else {})


def test_what_is_not_compared_is_not_in_it() -> None:
    files = (
        OutputFile("out", 1, False, True),
        OutputFile("log", 1, True, False),
        OutputFile("b", 1, True, True),
    )
    sha256 = "0" * 64
    text = compared_text(files, {"out": StoredOutput(5, sha256), "log": StoredOutput(6, sha256)})
    assert text == f"out sha256:{sha256} 5\nb absent"


def test_lines_that_are_none() -> None:
    sha256 = "0" * 64
    for line in (
        "",
        "out",
        f"../out sha256:{sha256} 5",
        f"out sha256:{sha256.upper()}Z 5",
        f"out sha256:{sha256} ",
    ):
        assert list(files_in(line)) == []
    assert stored_path(Path("/u"), sha256) == Path(f"/u/store/{sha256}")
