"""podman with a storage of its own: a trial leaves the images and containers of this machine alone."""
import os
import shlex
import shutil
from dataclasses import dataclass
from pathlib import Path

from debian_trial.debian import Done, TrialFault, finished, run

BASE = "localhost/bsched-base"  # the base that is made here
NAME = "bsched"  # of the image, the container and the volume in the page
MAKE_SECONDS = 3600  # on a machine that is busy with other things
WRAPPER = """\
#!/bin/sh
# podman, with the options of this trial
word=$1
shift
case $word in
  build) set -- {build} "$@" ;;
  run) set -- {run} "$@" ;;
esac
exec {podman} "$word" "$@"
"""


@dataclass(frozen=True, slots=True)
class Options:
    """What a trial adds to the commands of the page."""

    base: str
    runtime: str | None
    run_options: str


class Podman:
    """podman, as the commands of the page find it."""

    def __init__(self, work: Path, options: Options):
        self.work = work
        program = shutil.which("podman") or "podman"
        self.words = [program, f"--root={work / 'storage'}", f"--runroot={work / 'run'}"]
        if options.runtime is not None:
            self.words.append(f"--runtime={options.runtime}")
        wrapper = work / "bin" / "podman"
        wrapper.parent.mkdir(exist_ok=True)
        text = WRAPPER.format(
            build=f"--network=host --build-arg=BASE={shlex.quote(options.base)}",
            run=shlex.join(shlex.split(options.run_options)),
            podman=shlex.join(self.words),
        )
        wrapper.write_text(text)
        wrapper.chmod(0o755)
        self.environment = {
            **os.environ,
            "PATH": f"{wrapper.parent}:{os.environ['PATH']}",
            "LC_ALL": "C.UTF-8",
        }

    def run(self, *words: str, seconds: int = 300) -> str:
        """Returns what podman prints. A command that fails ends the trial."""
        return run([*self.words, *words], seconds)

    def shell(self, commands: str, seconds: int = MAKE_SECONDS) -> Done:
        """Runs commands of the page in the folder of the trial, and returns how they ended."""
        words = ["bash", "-ec", f"cd {shlex.quote(str(self.work))}\n{commands}"]
        return finished(words, seconds, self.environment)

    def in_container(self, commands: str, seconds: int = 600) -> Done:
        """Runs commands in a shell of the container, and returns how they ended."""
        return finished([*self.words, "exec", NAME, "bash", "-ec", commands], seconds)

    def inside(self, commands: str, seconds: int = 600) -> str:
        """Returns what commands in the container print. They must end with status 0."""
        done = self.in_container(commands, seconds)
        if done.returncode:
            raise TrialFault(f"{commands}: status {done.returncode}\n{done.stdout[-3000:]}")
        return done.stdout

    def volume(self) -> Path:
        """Returns the folder of the volume on this machine."""
        return Path(self.run("volume", "inspect", "--format", "{{.Mountpoint}}", NAME).strip())

    def clear(self) -> None:
        """Removes the containers and the volumes. The images stay."""
        self.run("rm", "--all", "--force", "--time", "5")
        self.run("volume", "rm", "--all", "--force")

    def remove_images(self) -> None:
        """Removes the images, too."""
        self.run("rmi", "--all", "--force")

    def make_base(self, suite: str, mirror: str) -> None:
        """Makes a small Debian as the base of the image, unless there is one: no registry is asked."""
        if finished([*self.words, "image", "exists", BASE]).returncode == 0:
            return
        archive = self.work / "base.tar"
        if not archive.exists():
            made = self.work / "base.new.tar"
            run(["mmdebstrap", "--quiet", "--variant=minbase", suite, str(made), mirror], MAKE_SECONDS)
            made.rename(archive)
        self.run("import", str(archive), BASE, seconds=MAKE_SECONDS)
