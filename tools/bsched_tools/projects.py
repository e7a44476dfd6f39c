"""The folder of a project, as `bsched-project` makes it: ports, keys, and what the project's units do."""
import os
import pwd
import tomllib
from dataclasses import dataclass
from pathlib import Path
from typing import Any

from bsched_files.faults import Fault
from bsched_files.ports import SCHEDULER, read_port
from bsched_files.project_settings import PROJECTS, BridgeFile, file_of
from bsched_files.texts import WORD
from bsched_files.toml_entries import OperatorFile
from bsched_files.uploads import DATABASE

from .pairs import elsewhere
from .root_folders import check_writable, make_below

BACKUPS = Path("/var/backups/bsched")
WEB = Path("/var/lib/bsched-web")
PROGRAM = Path("/usr/bin/bsched")
NO_MEMBER = "only root and members of the group bsched may use this project"
UNIT_TABLES = ("copy", "results", "page", "statistics", "health")


@dataclass(frozen=True, slots=True)
class UnitSettings:
    """What the units of a project do: the file `units.toml` of its folder."""

    copies: Path  # the folder of copies
    copies_kept: int
    is_checked: bool  # whether the program opens each copy
    results_command: tuple[str, ...]  # gets the name of a file with new results; empty if there is none
    page: Path  # the folder of the page
    statistics: Path  # the folder of the files for statistics sites
    is_everybody_named: bool
    mail: str  # who gets mail if the health changes; empty for nobody
    copy_hours: int  # a newest copy that is older is a fault


def toml_of(path: Path) -> dict[str, Any]:
    """Returns what a TOML file says."""
    try:
        return tomllib.loads(path.read_text(encoding="utf-8"))
    except OSError as error:
        raise Fault(f"{path}: {error.strerror}") from None
    except (tomllib.TOMLDecodeError, UnicodeDecodeError) as error:
        raise Fault(f"{path}: it is not TOML: {error}") from None


@dataclass(frozen=True, slots=True)
class Project:
    """A project's folder."""

    folder: Path

    @property
    def name(self) -> str:
        """The name of the project."""
        return self.folder.name

    @property
    def tables(self) -> Path:
        """The tables."""
        return self.folder / "project.db"

    @property
    def settings(self) -> Path:
        """The file of settings."""
        return self.folder / "settings.toml"

    @property
    def bridge_file(self) -> Path:
        """The settings of the bridge, which a project may lack."""
        return file_of(self.folder)

    @property
    def work(self) -> Path:
        """The folder of what the units keep. It is secret."""
        return self.folder / "units"

    @property
    def operator_key(self) -> str:
        """The operator's key."""
        key = toml_of(self.settings).get("operator_key")
        if not isinstance(key, str) or not WORD.fullmatch(key):
            raise Fault(f"{self.settings}: it has no operator_key")
        return key

    @property
    def bridge(self) -> BridgeFile | None:
        """The settings of the bridge, or None if there is no bridge."""
        return BridgeFile(self.bridge_file) if self.bridge_file.exists() else None

    @property
    def title(self) -> str:
        """The name of the project for people: that of its bridge, or that of its folder."""
        bridge = self.bridge
        return (None if bridge is None else bridge.name) or self.name

    @property
    def url(self) -> str | None:
        """The master URL, or None if there is no bridge."""
        bridge = self.bridge
        return None if bridge is None else bridge.url

    @property
    def uploads(self) -> Path | None:
        """The bridge's folder of uploads, or None if there is none."""
        bridge = self.bridge
        path = None if bridge is None else bridge.uploads
        return path if path is not None and (path / DATABASE).exists() else None

    @property
    def completing(self) -> str:
        """The advice for a project that lacks what a new one has."""
        return f"`bsched-project --complete {self.name}` adds what a new project has"

    def check_uploads(self) -> None:
        """Refuses a project whose bridge has no output files."""
        bridge = self.bridge
        if bridge is not None and bridge.uploads is None:
            raise Fault(
                f"{self.bridge_file}: it has no [uploads], which output files need: {self.completing}"
            )

    @property
    def bridge_state(self) -> Path | None:
        """The state file of the bridge, or None if there is no bridge."""
        bridge = self.bridge
        return None if bridge is None else bridge.state

    def check_bridge(self) -> None:
        """Refuses a project that has no bridge."""
        if not self.bridge_file.exists():
            advice = f"make one by `bsched-project --add-bridge {self.name}`"
            raise Fault(f"{self.folder}: the project has no bridge: {advice}")

    @property
    def news(self) -> Path:
        """The folder of the news, which need not be there."""
        self.check_bridge()
        return BridgeFile(self.bridge_file).news

    @property
    def archives(self) -> list[Path]:
        """The earlier files of the project, which its bridge names."""
        bridge = self.bridge
        return [] if bridge is None else list(bridge.archives)

    def port(self, name: str = SCHEDULER) -> int:
        """Returns a port: PORT is that of the scheduler, BRIDGE_PORT that of the bridge."""
        return read_port(self.folder, name)

    def units(self) -> UnitSettings:
        """Reads `units.toml`. What it does not say has its default."""
        path = self.folder / "units.toml"
        return self.units_in(OperatorFile(path)) if path.exists() else self.default_units()

    def default_units(self) -> UnitSettings:
        """Returns what the units do if no file says it."""
        return self.units_in(OperatorFile(self.folder / "units.toml", text=""))

    def units_in(self, file: OperatorFile) -> UnitSettings:
        """Returns what a file says."""
        copy, results, page, statistics, health = (file.part(name) for name in UNIT_TABLES)
        settings = UnitSettings(
            copies=self.folder / copy.text("folder", str(BACKUPS / self.name)),
            copies_kept=copy.whole("keep", 1, 100_000, 48),
            is_checked=copy.flag("check", True),
            results_command=tuple(results.texts("command")),
            page=self.folder / page.text("folder", str(WEB / self.name / "report")),
            statistics=self.folder / statistics.text("folder", str(WEB / self.name / "stats")),
            is_everybody_named=statistics.flag("everybody"),
            mail=health.text("mail", ""),
            copy_hours=health.whole("copy_hours", 1, 10_000, 3),
        )
        for table in (copy, results, page, statistics, health, file):
            table.end()
        return settings

    def become_owner(self) -> None:
        """As root, becomes the user who has the folder, so that its files keep one owner."""
        if os.geteuid() != 0:
            return
        owner = self.folder.stat()
        if owner.st_uid == 0:
            return
        name = pwd.getpwuid(owner.st_uid).pw_name
        os.initgroups(name, owner.st_gid)
        os.setgid(owner.st_gid)
        os.setuid(owner.st_uid)
        os.environ["HOME"] = str(self.folder)

    def as_owner(self) -> dict[str, Any]:
        """Returns the options with which root starts a process as the user who has the folder."""
        owner = self.folder.stat()
        if os.geteuid() != 0 or owner.st_uid == 0:
            return {}
        return {"user": owner.st_uid, "group": owner.st_gid, "extra_groups": [], "cwd": "/"}

    def made(self, folder: Path, mode: int) -> Path:
        """Makes a folder if it does not exist, and the ones above it.

        As root it gives it the project's owner, and makes it only below the folder of backups or of web
        pages, or in the project's.
        """
        if folder.is_dir():
            return folder
        try:
            if os.geteuid() == 0:
                make_below((BACKUPS, WEB, self.folder), folder, mode, self.folder.stat())
                return folder
            for parent in reversed(folder.parents):
                if not parent.is_dir():
                    parent.mkdir()
                    parent.chmod(0o755)  # whatever the umask of a unit is
            folder.mkdir(mode=mode)
            folder.chmod(mode)
        except OSError as error:
            raise Fault(f"{folder}: it can't be made: {error.strerror}: make it as root") from None
        return folder

    def copies_made(self, folder: Path) -> Path:
        """Makes the folder of copies if it does not exist. As root it refuses one into which the project's
        owner may not write, since root writes the copies.
        """
        made = self.made(folder, 0o700)
        if os.geteuid() == 0:
            check_writable(made, self.folder.stat())
        return made


def project_of(name: str) -> Project:
    """Returns the project with a name, or in a folder if the name has a slash."""
    folder = Path(os.path.abspath(name)) if "/" in name else PROJECTS / name
    try:
        is_project = (folder / "settings.toml").is_file()
    except PermissionError:
        raise Fault(f"{folder}: {NO_MEMBER}") from None
    if not is_project:
        if (text := elsewhere(folder)) is not None:
            raise Fault(text)
        made = sorted(path.parent.name for path in PROJECTS.glob("*/settings.toml"))
        there = f"; there are {', '.join(made)}" if made else ""
        raise Fault(f"{folder}: it is no project of bsched-project{there}")
    return Project(folder)
