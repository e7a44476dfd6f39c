"""Tests that the findings that are written are those that are read, and the order of their levels."""
import json
from pathlib import Path

import pytest

from bsched_files.faults import Fault
from bsched_files.findings import FORMAT, Finding, Findings, Level, levels_of, read_findings, worst_of

FOUND = [
    Finding("disk", Level.GOOD, "much"),
    Finding("disk", Level.CRITICAL, "little"),
    Finding("tick", Level.UNKNOWN, "ask as root"),
    Finding("copy", Level.WARNING, "old"),
]


@pytest.mark.parametrize("findings", [Findings(5, FOUND, 2, 3, 4), Findings(5, [])])
def test_what_is_written_is_read(tmp_path: Path, findings: Findings) -> None:
    path = tmp_path / "findings.json"
    path.write_text(findings.text() + "   ")
    assert read_findings(path) == findings


def test_files_of_other_versions(tmp_path: Path) -> None:
    path = tmp_path / "findings.json"
    members = json.loads(Findings(5, FOUND).text())
    path.write_text(json.dumps({**members, "format": FORMAT + 1}))
    with pytest.raises(Fault, match=f"it has format {FORMAT + 1}, and this program knows {FORMAT}"):
        read_findings(path)
    del members["format"]  # as version 1.2 wrote it
    path.write_text(json.dumps(members))
    assert read_findings(path) == Findings(5, FOUND)


def test_the_worst_level() -> None:
    assert worst_of(FOUND) is Level.CRITICAL and worst_of([]) is Level.UNKNOWN
    assert worst_of(FOUND[2:]) is Level.WARNING and worst_of(FOUND[:1]) is Level.GOOD
    assert levels_of(FOUND) == {"disk": "CRITICAL", "tick": "UNKNOWN", "copy": "WARNING"}
    assert [level.word for level in Level] == ["good", "warning", "critical", "unknown"]
    assert FOUND[1].line == "critical  disk         little"
