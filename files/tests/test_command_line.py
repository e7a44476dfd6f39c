"""Tests what command lines have in common."""
from importlib import metadata
from pathlib import Path

import pytest

from bsched_files import command_line
from bsched_files.command_line import BAD_COMMAND_LINE, PACKAGE, CommandLine, version

TOP = Path(__file__).resolve().parent.parent.parent


def test_a_bad_command_line(capsys: pytest.CaptureFixture[str]) -> None:
    parser = CommandLine(prog="bsched-some")
    parser.add_subparsers().add_parser("order").add_argument("--many", type=int)
    with pytest.raises(SystemExit) as ended:
        parser.parse_args(["order", "--many", "x"])
    assert ended.value.code == BAD_COMMAND_LINE
    assert capsys.readouterr().err.splitlines()[-1] == "bsched-some: argument --many: invalid int value: 'x'"


def test_the_version(monkeypatch: pytest.MonkeyPatch, tmp_path: Path) -> None:
    assert version() == (TOP / "VERSION").read_text().strip()
    monkeypatch.setattr(command_line, "__file__", str(tmp_path / "a" / "b" / "c.py"))
    monkeypatch.setattr(metadata, "version", lambda name: f"of {name}")
    assert version() == f"of {PACKAGE}"
