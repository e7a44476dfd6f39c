"""The plots of the last month: `plots.json` names them, and each is a file of SVG next to it.
`bsched-tools report` writes them into the folder of a project for the bridge's page.

`plots.json` is written last, so that a bridge that reads it finds the files.
"""
import re
from collections.abc import Sequence
from dataclasses import dataclass
from pathlib import Path

from .atomic import replace_file
from .faults import Fault
from .json_files import file_text, read_members

NAME = "plots.json"
FORMAT = 1
MOST_LIST, MOST_PLOT, MOST_PLOTS = 65_536, 524_288, 6  # bytes, bytes, plots
MOST_TEXT = 1000  # characters that describe a plot
FILE_NAME = re.compile(r"[a-z]{1,20}\.svg")
# the titles; the bridge has them in the languages of its readers
RESULTS, COMPUTERS, CREDIT = "Results a day", "Active computers", "Credit"


@dataclass(frozen=True, slots=True)
class Plot:
    """A plot: the name of its file, its title, what it says in words, and its SVG."""

    file: str
    title: str
    text: str
    svg: bytes


def write_plots(folder: Path, plots: Sequence[Plot]) -> None:
    """Writes plots into a folder."""
    for plot in plots:
        replace_file(folder / plot.file, [plot.svg])
    listed = [{"file": plot.file, "title": plot.title, "text": plot.text} for plot in plots]
    replace_file(folder / NAME, [file_text(FORMAT, {"plots": listed}).encode()])


def read_plots(path: Path) -> list[Plot]:
    """Reads the plots of a list. Raises Fault if one can't be read."""
    members = read_members(path, FORMAT, MOST_LIST)
    try:
        listed = [(str(one["file"]), str(one["title"]), str(one["text"])) for one in members["plots"]]
    except (KeyError, TypeError):
        raise Fault(f"{path}: it has no plots") from None
    return [
        Plot(name, title[:MOST_TEXT], text[:MOST_TEXT], _svg_in(path.with_name(name)))
        for name, title, text in listed[:MOST_PLOTS]
        if _is_name(path, name)
    ]


def _is_name(path: Path, name: str) -> bool:
    """Checks the name of a plot's file."""
    if not FILE_NAME.fullmatch(name):
        raise Fault(f"{path}: a plot has another name than letters and .svg")
    return True


def _svg_in(path: Path) -> bytes:
    """Returns the SVG in a file."""
    try:
        with path.open("rb") as file:
            svg = file.read(MOST_PLOT + 1)
    except OSError as error:
        raise Fault(f"{path}: {error.strerror}") from None
    if len(svg) > MOST_PLOT:
        raise Fault(f"{path}: it is longer than {MOST_PLOT} bytes")
    return svg
