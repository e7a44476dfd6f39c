"""Progress bars on a terminal."""
import sys

import pytest

from bsched_tools.progress_bars import Bar


def test_a_bar_is_drawn_on_a_terminal_alone(
    monkeypatch: pytest.MonkeyPatch, capsys: pytest.CaptureFixture[str]
) -> None:
    Bar("importing").seen(5, 10)
    assert capsys.readouterr().err == ""
    monkeypatch.setattr(sys.stderr, "isatty", lambda: True, raising=False)
    monkeypatch.setattr("bsched_tools.progress_bars.PAUSE_SECONDS", 600.0)
    bar = Bar("importing")
    bar.seen(5, 10)
    bar.seen(6, 10)  # too soon
    bar.seen(10, 10)
    half, full = f"[{'#' * 15}{' ' * 15}] 5 of 10", f"[{'#' * 30}] 10 of 10"
    assert capsys.readouterr().err == f"\rimporting {half}\rimporting {full}\n"
