"""A project with a bridge for the tests: its scheduler is the twin, and nobody serves its bridge."""
from pathlib import Path

from bsched_bridge.common.code_signing import write_new_keys
from made_project import MadeProject
from small_project import KEY

PLATFORM = "x86_64-pc-linux-gnu"
CATALOGUE = """\
# the files of sums
code_sign_key = "code_sign_public"   # made once
files = "files"
"""


class WorkProject(MadeProject):
    """A project with a bridge, whose catalogue has no application yet."""

    def __init__(self, folder: Path) -> None:
        super().__init__(folder)
        self.bridge = self.folder / "bridge"
        self.files, self.catalogue = self.bridge / "files", self.bridge / "catalogue.toml"
        self.files.mkdir(parents=True)
        self.catalogue.write_text(CATALOGUE)
        self.key = self.bridge / "code_sign_private"
        write_new_keys(self.key, self.bridge / "code_sign_public")
        (self.bridge / "bridge.toml").write_text(
            f'name = "Sums"\nurl = "http://127.0.0.1:8081/p/"\nlisten = "127.0.0.1:8081"\n'
            f'scheduler = "127.0.0.1:{self.port}"\noperator_key = "{KEY}"\ncatalogue = "catalogue.toml"\n'
            'state = "bridge.db"\n[uploads]\nfolder = "uploads"\nmost_bytes = 1_000_000_000\nfree_bytes = 0\n'
        )
        self.program = folder / "count.py"
        self.program.write_text("#!/usr/bin/python3\nprint(1)\n")
        self.program.chmod(0o755)
        self.inputs = folder / "inputs"
        self.inputs.mkdir()

    def app(self, *words: object, name: str = "count") -> tuple[int, str, str]:
        """Adds an application, signed."""
        return self.tools("app", name, "--program", self.program, "--key", self.key, *words)

    def submit(self, *words: object, batch: str = "run", app: str = "count") -> tuple[int, str, str]:
        """Makes work."""
        return self.tools("submit", "--app", app, "--batch", batch, *words)

    def make_inputs(self, count: int, nbytes: int = 20) -> Path:
        """Makes input files."""
        for number in range(1, count + 1):
            (self.inputs / f"part_{number:05}.txt").write_text(f"{number}".rjust(nbytes))
        return self.inputs

    def state(self) -> dict[str, bytes]:
        """Returns the bytes of all files of the project, without those that a look may leave."""
        left_out = ("project.db", "project.db-wal", "project.db-shm")
        paths = (path for path in self.folder.rglob("*") if path.is_file() and path.name not in left_out)
        return {str(path.relative_to(self.folder)): path.read_bytes() for path in sorted(paths)}
