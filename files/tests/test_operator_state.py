"""What a bridge says of itself: what one writes another one reads, and what is no state."""
import json

import pytest
from hypothesis import given
from hypothesis import strategies as st

from bsched_files.faults import Fault
from bsched_files.operator_state import OperatorState, PutOffReport, UploadRoom, read_state

NUMBERS = st.integers(-(2**63), 2**63)
STATES = st.builds(
    OperatorState,
    st.none() | st.text(),
    st.dictionaries(st.text(), st.text(), max_size=5),
    st.none() | st.builds(PutOffReport, NUMBERS, st.text()),
    st.none() | st.builds(UploadRoom, NUMBERS, NUMBERS, NUMBERS, NUMBERS, NUMBERS),
)


@given(STATES)
def test_what_is_written_is_read(state: OperatorState) -> None:
    assert read_state(state.text().encode()) == state


@pytest.mark.parametrize(
    "changed",
    [
        {"format": 2},
        {"format": None},
        {"catalogue": None},
        {"catalogue": {"edit": None}},
        {"catalogue": {"edit": 1, "digests": {}}},
        {"catalogue": {"edit": None, "digests": {"sum": 1}}},
        {"put_off": {"moment": True, "text": "x"}},
        {"put_off": []},
        {"uploads": {"used": 1}},
        {"uploads": 1},
    ],
)
def test_what_is_no_state(changed: dict[str, object]) -> None:
    members = json.loads(OperatorState(None, {}, None, None).text())
    with pytest.raises(Fault):
        read_state(json.dumps({**members, **changed}).encode())


def test_a_newer_version_is_named() -> None:
    with pytest.raises(Fault, match="it has format 2, and this program knows 1: upgrade the program"):
        read_state(b'{"format": 2}')
