"""A project's folder, and the settings of its units."""
import re
from pathlib import Path

import pytest
from small_project import tools

from bsched_files.faults import Fault
from bsched_tools import projects


@pytest.mark.parametrize(
    "text, fault",
    [
        ("[copys]\n", "line 1: copys is not known here: is copy meant?"),
        ("[copy]\n\n[other]\n", "line 3: other is not known here"),
        ("[copy]\nkeeps = 3\n", "line 2: keeps is not known here: is keep meant?"),
        ('[copy]\nkeep = "3"\n', "line 2: keep is not a whole number"),
        ("[copy]\nkeep = 0\n", "line 2: keep is not within 1 to 100000"),
        ("copy = 3\n", "line 1: copy is not a table [copy]"),
        ('[results]\ncommand = "x"\n', "line 2: command is not a list of texts"),
        ("[results]\ncommand = [3]\n", "line 2: command is not a list of texts"),
        ("copy\n", "is not TOML: "),
    ],
)
def test_faults_of_the_settings_of_units(tmp_path: Path, text: str, fault: str) -> None:
    (tmp_path / "units.toml").write_text(text)
    with pytest.raises(Fault, match=re.escape(f"{tmp_path}/units.toml: {fault}")):
        projects.Project(tmp_path).units()


def test_defaults_of_the_settings_of_units(tmp_path: Path) -> None:
    units = projects.Project(tmp_path / "sums").units()
    assert (units.copies, units.copies_kept) == (Path("/var/backups/bsched/sums"), 48)
    assert units.page == Path("/var/lib/bsched-web/sums/report") and not units.is_everybody_named
    assert units.statistics == Path("/var/lib/bsched-web/sums/stats") and units.mail == ""


def test_what_is_no_project(tmp_path: Path) -> None:
    status, output, fault = tools("health", "--project", f"{tmp_path}/")
    assert (status, output) == (3, "") and "it is no project of bsched-project" in fault
    assert tools("counts")[0] == 64 and tools("counts", "--project", "x", "--tables", "y")[0] == 64
    assert tools("report", "--tables", tmp_path)[0] == 64
