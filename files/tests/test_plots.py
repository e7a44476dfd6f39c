"""Tests that a bridge reads the plots that a report wrote."""
import json
from pathlib import Path

import pytest

from bsched_files.faults import Fault
from bsched_files.plots import (
    CREDIT,
    FORMAT,
    MOST_PLOT,
    MOST_PLOTS,
    NAME,
    RESULTS,
    Plot,
    read_plots,
    write_plots,
)

PLOTS = [
    Plot("results.svg", RESULTS, "how many", b"<svg>1</svg>"),
    Plot("credit.svg", CREDIT, "credit", b"<svg/>"),
]


@pytest.mark.parametrize("plots", [PLOTS, []])
def test_what_is_written_is_read(tmp_path: Path, plots: list[Plot]) -> None:
    write_plots(tmp_path, plots)
    assert read_plots(tmp_path / NAME) == plots


@pytest.mark.parametrize(
    "change",
    [
        {"format": FORMAT + 1},
        {"plots": 1},
        {"plots": [1]},
        {"plots": [{"file": "../key", "title": "", "text": ""}]},
        {"plots": [{"file": "none.svg", "title": "", "text": ""}]},
        {"plots": [{"file": "large.svg", "title": "", "text": ""}]},
    ],
)
def test_faults(tmp_path: Path, change: dict[str, object]) -> None:
    write_plots(tmp_path, PLOTS)
    (tmp_path / "large.svg").write_bytes(bytes(MOST_PLOT + 1))
    path = tmp_path / NAME
    path.write_text(json.dumps({**json.loads(path.read_text()), **change}))
    with pytest.raises(Fault, match=f"^{tmp_path}/"):
        read_plots(path)


def test_there_are_so_many(tmp_path: Path) -> None:
    write_plots(tmp_path, PLOTS * MOST_PLOTS)
    assert len(read_plots(tmp_path / NAME)) == MOST_PLOTS
