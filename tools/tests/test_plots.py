"""How the page is drawn."""
import re
from pathlib import Path

from pages_made import lived_in_parts


def test_each_plot_has_a_text_and_a_table(tmp_path: Path, folder: Path) -> None:
    _, _, read = lived_in_parts(tmp_path, folder)
    plots = [attrs for tag, attrs in read.tags if tag == "svg"]
    assert len(plots) == 7
    assert all(plot["role"] == "img" and "viewbox" in plot for plot in plots)
    assert all(len(plot["aria-label"] or "") > 20 for plot in plots)
    names = [tag for tag, _ in read.tags]
    assert names.count("details") == len(plots) and names.count("figure") == len(plots)
    assert "script" not in names
    metas = [attrs for tag, attrs in read.tags if tag == "meta"]
    assert {"name": "viewport", "content": "width=device-width, initial-scale=1"} in metas
    ids = [attrs["id"] for _, attrs in read.tags if "id" in attrs]
    used = set(re.findall(r"url\(#([^)]*)\)", (folder / "index.html").read_text()))
    assert used <= set(ids)
