"""What the tests share."""
import subprocess
from collections.abc import Iterator
from pathlib import Path

import pytest
from files_uploaded import put_files
from lives import life_of, stored_life
from made_project import MadeProject
from results_read import lines_of
from small_project import Twin, make_tables
from stuck_lives import Life
from work_project import WorkProject


@pytest.fixture
def project(tmp_path: Path) -> Path:
    """Makes the tables of a small project."""
    return make_tables(tmp_path / "project.db")


@pytest.fixture
def twin(project: Path) -> Iterator[Twin]:
    """Yields the small project, served."""
    served = Twin(project)
    yield served
    served.end()


@pytest.fixture
def copies(tmp_path: Path) -> Path:
    """Makes a folder for copies."""
    folder = tmp_path / "copies"
    folder.mkdir()
    return folder


@pytest.fixture
def small_disk(tmp_path: Path) -> Iterator[Path]:
    """Mounts a file system with little room."""
    folder = tmp_path / "small"
    folder.mkdir()
    command = ["mount", "-t", "tmpfs", "-o", "size=64k", "tmpfs", str(folder)]
    if subprocess.run(command, capture_output=True).returncode:
        pytest.skip("no file system may be mounted")
    yield folder
    subprocess.run(["umount", folder], check=True)


@pytest.fixture
def bare(tmp_path: Path) -> Iterator[WorkProject]:
    """Yields a project without an application, which is served."""
    made = WorkProject(tmp_path)
    made.serve()
    yield made
    made.end()


@pytest.fixture
def work(bare: WorkProject) -> WorkProject:
    """Adds an application with an output file."""
    assert bare.app("--output", "out:1M")[0] == 0
    return bare


@pytest.fixture
def made_project(tmp_path: Path) -> Iterator[MadeProject]:
    """Makes a project, and ends its scheduler."""
    made = MadeProject(tmp_path)
    yield made
    made.end()


@pytest.fixture
def life(tmp_path: Path) -> Iterator[Life]:
    """Yields a project."""
    made = Life(tmp_path / "project.db")
    yield made
    made.tables.connection.close()


@pytest.fixture
def folder(tmp_path: Path) -> Path:
    """Makes a folder for what a command writes."""
    made = tmp_path / "written"
    made.mkdir()
    return made


@pytest.fixture
def tables(tmp_path: Path) -> Path:
    """Makes tables with some results."""
    return stored_life(life_of(7, calls=600), tmp_path / "project.db")


@pytest.fixture
def uploads(tmp_path: Path, tables: Path) -> Path:
    """Makes a folder of uploads with two files of each canonical result, as the bridge writes it."""
    folder = tmp_path / "uploads"
    (folder / "store").mkdir(parents=True)
    put_files(folder, lines_of(tables))
    return folder
