"""Plots as SVG within a page, in the colours of the page."""
import io
import re
import warnings
from collections.abc import Mapping, Sequence
from datetime import datetime, timezone
from html import escape

import matplotlib  # type: ignore[import]
from matplotlib.backends.backend_svg import FigureCanvasSVG  # type: ignore[import]
from matplotlib.dates import AutoDateLocator, ConciseDateFormatter  # type: ignore[import]
from matplotlib.figure import Figure  # type: ignore[import]
from matplotlib.ticker import MaxNLocator  # type: ignore[import]

# a colour that nothing else has; in the page it becomes the colour of the text
TEXT = "#010203"
COLOURS = ("#3b82c4", "#3a9a5c", "#d1662f", "#9a6bc9", "#c2487f", "#8a8a2c")
SIZE = (5.4, 2.7)
XLINK = "http://www.w3.org/1999/xlink"
SETTINGS = {
    "svg.fonttype": "none",
    "text.parse_math": False,
    "font.size": 9,
    "font.family": "sans-serif",
    "text.color": TEXT,
    "axes.edgecolor": TEXT,
    "axes.labelcolor": TEXT,
    "xtick.color": TEXT,
    "ytick.color": TEXT,
    "axes.spines.top": False,
    "axes.spines.right": False,
    "figure.constrained_layout.use": True,
}


def written(figure: Figure, name: str, text: str) -> str:
    """Returns a figure as an element of a page. The text describes it for those who do not see it."""
    file = io.StringIO()
    with matplotlib.rc_context({"svg.hashsalt": name}), warnings.catch_warnings():
        warnings.simplefilter("ignore")  # about characters that the font lacks: the browser has them
        figure.savefig(file, format="svg", transparent=True, metadata={"Date": None, "Creator": None})
    svg = file.getvalue()
    svg = svg[svg.index("<svg") :].replace(TEXT, "currentColor")
    svg = re.sub(r"<metadata>.*?</metadata>", "", svg, flags=re.DOTALL)
    head, _, rest = svg.partition(">")
    box = re.search(r'viewBox="[^"]*"', head)
    opening = f'<svg {box[0] if box else ""} role="img" xmlns:xlink="{XLINK}" aria-label="{escape(text)}">'
    return f"{opening}\n<title>{escape(text)}</title>{rest}"


def new_figure() -> Figure:
    """Returns a figure without a window."""
    figure = Figure(figsize=SIZE)
    FigureCanvasSVG(figure)
    return figure


def lines(name: str, text: str, moments: Sequence[int], series: Mapping[str, Sequence[float]]) -> str:
    """Returns a plot of how some numbers changed."""
    with matplotlib.rc_context(SETTINGS):
        figure = new_figure()
        axes = figure.add_subplot()
        at = [datetime.fromtimestamp(moment, timezone.utc) for moment in moments]
        for colour, (what, values) in zip(COLOURS, series.items()):
            axes.plot(at, values, color=colour, label=what, marker="o", markersize=2.5, linewidth=1.5)
        locator = AutoDateLocator(maxticks=5)
        axes.xaxis.set_major_locator(locator)
        axes.xaxis.set_major_formatter(ConciseDateFormatter(locator))
        axes.yaxis.set_major_locator(MaxNLocator(integer=True))
        axes.set_ylim(bottom=0)
        axes.grid(axis="y", color=TEXT, alpha=0.15)
        if len(series) > 1:
            axes.legend(frameon=False, fontsize=8, ncols=3, loc="lower left", bbox_to_anchor=(0, 1))
        return written(figure, name, text)


def columns(name: str, text: str, labels: Sequence[str], values: Sequence[float], label: str) -> str:
    """Returns a plot of numbers side by side."""
    with matplotlib.rc_context(SETTINGS):
        figure = new_figure()
        axes = figure.add_subplot()
        axes.bar(range(len(values)), values, color=COLOURS[0])
        step = max(1, len(labels) // 8)
        axes.set_xticks(range(0, len(labels), step), labels[::step])
        axes.yaxis.set_major_locator(MaxNLocator(integer=True))
        axes.set_ylim(0, 1.05 * max([1, *values]))
        axes.set_xlabel(label)
        axes.grid(axis="y", color=TEXT, alpha=0.15)
        return written(figure, name, text)


def bars(
    name: str, text: str, labels: Sequence[str], values: Sequence[float], most: float | None = None
) -> str:
    """Returns a plot of numbers one below the other, with their names."""
    with matplotlib.rc_context(SETTINGS):
        figure = new_figure()
        axes = figure.add_subplot()
        short = [label if len(label) <= 24 else f"{label[:23]}…" for label in labels]
        axes.barh(range(len(values)), values, color=COLOURS[0])
        axes.set_yticks(range(len(values)), short)
        axes.invert_yaxis()
        axes.set_xlim(0, most or max([1, *values]))
        axes.grid(axis="x", color=TEXT, alpha=0.15)
        return written(figure, name, text)
