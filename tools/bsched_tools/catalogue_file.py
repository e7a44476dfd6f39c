"""The catalogue of a project: how a new text takes its place, and files for those who may write it."""
import os
from pathlib import Path

from bsched_files.atomic import new_file, sync
from bsched_files.catalogue import CatalogueFile
from bsched_files.faults import Fault
from bsched_files.programs import run
from bsched_files.project_settings import BridgeFile

from .projects import Project
from .volunteers import command_of_bridge

CHECK_SECONDS = 600.0


class ProjectCatalogue(CatalogueFile):
    """The catalogue of a project."""

    def __init__(self, project: Project) -> None:
        super().__init__(BridgeFile(project.bridge_file).catalogue)
        self.project = project

    def replace(self, text: str) -> None:
        """Has the bridge check a new text, and puts it in the place of the catalogue."""
        new = self.path.with_name(f".{self.path.name}.new")
        try:
            write_file(self.project, new, text.encode())
            check_by_bridge(self.project, new, self.path)
            os.replace(new, self.path)
            sync(self.path.parent)
        except OSError as error:
            raise Fault(f"{self.path}: {error.strerror}") from None
        finally:
            new.unlink(missing_ok=True)


def output_names_of(project: Project) -> dict[str, frozenset[str]]:
    """Returns the names of the output files of each application in a project's catalogue."""
    if not project.bridge_file.exists():
        return {}
    apps = ProjectCatalogue(project).apps()
    return {app.name: frozenset(file.open_name for file in app.output_files) for app in apps}


def write_file(project: Project, path: Path, data: bytes) -> None:
    """Writes a file that the bridge may read, whole or not at all. It is on the disk then."""
    new = path.with_name(f".{path.name}.part")
    with new_file(new, 0o640) as file:
        give_to_group(project, file.fileno())
        file.write(data)
        file.flush()
        os.fsync(file.fileno())
    os.replace(new, path)
    sync(path.parent)


def give_to_group(project: Project, descriptor: int) -> None:
    """Gives a file or a folder to the group of the project, which reads it."""
    group, status = project.settings.stat().st_gid, os.fstat(descriptor)
    if status.st_gid != group:
        os.fchown(descriptor, -1, group)
    os.fchmod(descriptor, 0o2770 if os.path.isdir(f"/proc/self/fd/{descriptor}") else 0o640)


def made_for_group(project: Project, folder: Path) -> Path:
    """Makes a folder in which members of the project's group may write, if it does not exist."""
    try:
        if not folder.is_dir():
            folder.mkdir(mode=0o770)
            descriptor = os.open(folder, os.O_RDONLY | os.O_DIRECTORY | os.O_NOFOLLOW)
            try:
                give_to_group(project, descriptor)
            finally:
                os.close(descriptor)
    except OSError as error:
        raise Fault(f"{folder}: it can't be made: {error.strerror}: make it as root") from None
    return folder


def check_by_bridge(project: Project, catalogue: Path, former: Path) -> None:
    """Has the bridge check its settings with a new catalogue in place of the former one, as the user who runs
    it. A fault names the former one, since the new one is removed then.
    """
    words = [
        *command_of_bridge(),
        "--config",
        str(project.bridge_file),
        "--check",
        "--catalogue",
        str(catalogue),
    ]
    done = run(words, CHECK_SECONDS, rights=project.as_owner())
    if done.returncode:
        last = (done.stderr.strip().splitlines() or ["it gives no reason"])[-1]
        says = last.removeprefix("bsched-bridge: ").replace(str(catalogue), f"{former} with the new entries")
        raise Fault(f"the bridge refuses it: {says}")
