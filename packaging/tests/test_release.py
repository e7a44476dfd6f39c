"""Tests that a release agrees with itself: versions, man pages, command lines, program and sources."""
import os
import re
import shutil
import subprocess
import sys
import tomllib
from collections.abc import Callable
from pathlib import Path

import pytest

from bsched_tools import projects

TOP = Path(__file__).resolve().parent.parent.parent
VERSION = (TOP / "VERSION").read_text().strip()
DEBIAN_CHANGELOG = (TOP / "debian" / "changelog").read_text()
COMMANDS = ["create", "serve", "import", "tick", "statement", "upgrade", "replay"]


def words_of(line: str) -> str:
    """Returns what bash offers at the end of a command line."""
    script = (
        f". {TOP}/packaging/completion/bsched; COMP_WORDS=({line}); COMP_CWORD=$((${{#COMP_WORDS[@]}} - 1)); "
        "_${COMP_WORDS[0]//-/_}; echo ${COMPREPLY[@]}"
    )
    return subprocess.run(["bash", "-c", script], capture_output=True, text=True, timeout=600).stdout.strip()


def test_each_place_has_the_version() -> None:
    """A version that is open has its changes under [Unreleased], and each other one has a section."""
    assert re.fullmatch(r"\d+\.\d+\.\d+", VERSION)
    first, *older = re.findall(r"^bsched \((.+)\) (\w+);", DEBIAN_CHANGELOG, re.MULTILINE)
    assert first[0] == VERSION and {suite for _, suite in older} == {"bookworm"}
    sections = re.findall(r"^## \[(.+?)\]", (TOP / "CHANGELOG.md").read_text(), re.MULTILINE)
    released = [first, *older] if first[1] == "bookworm" else older
    assert first[1] in ("bookworm", "UNRELEASED")
    assert sections == ["Unreleased", *(version for version, _ in released)]


@pytest.mark.skipif(shutil.which("dpkg-parsechangelog") is None, reason="dpkg-dev is not installed")
def test_debian_reads_the_changelog() -> None:
    command = ["dpkg-parsechangelog", "--all", "--file", str(TOP / "debian" / "changelog")]
    completed = subprocess.run(command, capture_output=True, text=True, timeout=600, check=True)
    assert completed.stderr == "" and f"Version: {VERSION}\n" in completed.stdout


def test_the_copyright_has_the_text_of_each_licence() -> None:
    paragraphs = (TOP / "debian" / "copyright").read_text().split("\n\n")
    texts = [re.match(r"License: (.+)\n .", paragraph) for paragraph in paragraphs]
    fields = re.findall(r"^License: (.+)$", "\n".join(paragraphs), re.MULTILINE)
    assert {name for field in fields for name in field.split(" and ")} == {text[1] for text in texts if text}


def test_the_man_page_has_each_command_of_the_profile() -> None:
    profile = (TOP / "docs" / "PROFILE.md").read_text()
    page = (TOP / "packaging" / "man" / "bsched.1").read_text().replace("\\-", "-").replace("\\fR", "")
    for command in COMMANDS:
        assert f"| `bsched {command}" in profile
        assert f'\n.BI "{command} ' in page


def test_the_tools_complete_each_option() -> None:
    by_command: dict[str, set[str]] = {}
    for name, options in synopsis("bsched-tools.1").items():
        command, *actions = name.split() or [""]
        by_command.setdefault(command, set()).update(options, actions)
    del by_command[""]
    for command, words in by_command.items():
        script = f". {TOP}/packaging/completion/bsched-tools; _bsched_tools_options {command}"
        completed = subprocess.run(
            ["bash", "-c", script], capture_output=True, text=True, timeout=600, check=True
        )
        assert set(completed.stdout.split()) == words, command


def test_the_man_page_of_the_settings_has_each_key_of_the_profile() -> None:
    profile = (TOP / "docs" / "PROFILE.md").read_text().partition("\n## Settings\n")[2].partition("\n## ")[0]
    keys = re.findall(r"^\| `(\w+)` \|", profile, re.MULTILINE)
    page = (TOP / "packaging" / "man" / "bsched-settings.5").read_text()
    assert len(keys) == 7 and re.findall(r"^\.TP\n\.B (\w+)$", page, re.MULTILINE) == keys


# a program with the words of its command, and what follows up to the next program
USAGE = re.compile(r"^bsched[a-z-]* ?((?:[a-z]+(?: (?=[a-z]))?)*)(.*(?:\n(?!bsched).*)*)", re.MULTILINE)


def synopsis(page: str) -> dict[str, set[str]]:
    """Returns the options in the synopsis of a man page, by command, such as "report" or "news add". Without
    a command the name is empty.
    """
    text = (TOP / "packaging" / "man" / page).read_text()
    text = text.partition("\n.SH SYNOPSIS\n")[2].partition("\n.SH ")[0]
    plain = re.sub(r"\\f[A-Z]|^\.\w+ ?", "", text.replace("\\-", "-"), flags=re.MULTILINE)
    found: dict[str, set[str]] = {}
    for command, rest in USAGE.findall(plain):
        found.setdefault(command, set()).update(re.findall(r"--[a-z-]+", rest))
    return found


def offered_by(*args: str) -> set[str]:
    """Returns the options that the help of a command names."""
    path = {"PYTHONPATH": f"{TOP}/bridge:{TOP}/files:{TOP}/tools", "PYTHONDONTWRITEBYTECODE": "1"}
    command = [*args, "--help"]
    completed = subprocess.run(command, env=path, capture_output=True, text=True, timeout=600, check=True)
    return set(re.findall(r"(?<![a-z])--[a-z-]+", completed.stdout)) - {"--help"}


@pytest.mark.parametrize("module", ["bsched_tools", "bsched_bridge"])
def test_each_synopsis_has_the_options_of_the_help(module: str) -> None:
    page = synopsis(f"{module.replace('_', '-')}.1")
    assert len(page) > 2
    for command, options in page.items():
        assert offered_by(sys.executable, "-m", module, *command.split()) == options, command


def test_the_synopsis_of_bsched_project_has_the_options_of_its_help() -> None:
    page = synopsis("bsched-project.8")
    assert set().union(*page.values()) == offered_by(f"{TOP}/packaging/bsched-project")
    help_command = [f"{TOP}/packaging/bsched-project", "--help"]
    usage = subprocess.run(help_command, capture_output=True, text=True, timeout=600).stdout
    for command in page:
        assert f" bsched-project {command}" in usage


def test_the_synopsis_of_bsched_has_the_options_of_the_profile() -> None:
    profile = (TOP / "docs" / "PROFILE.md").read_text()
    commands = re.findall(r"^\| `bsched (\w+)([^`]*)`", profile, re.MULTILINE)
    documented = {command: set(re.findall(r"--[a-z-]+", rest)) for command, rest in commands}
    page = synopsis("bsched.1")
    assert set(documented) == set(COMMANDS) and page | {"replay": page[""]} == documented | {"": page[""]}


# ---- Installed pages


def installed_pages() -> dict[str, str]:
    """Returns the documents that the packages install, each with its place below /usr/share/doc/bsched."""
    places = {name: name for name in (TOP / "debian" / "bsched.docs").read_text().split()}
    for line in (TOP / "debian" / "bsched.install").read_text().splitlines():
        source, target = line.split()
        if target.startswith("usr/share/doc/bsched/"):
            folder = target.removeprefix("usr/share/doc/bsched/")
            places |= {str(one.relative_to(TOP)): f"{folder}/{one.name}" for one in TOP.glob(source)}
    for line in (TOP / "debian" / "bsched-tools.links").read_text().splitlines():
        source, target = line.split()
        places[f"bridge/{Path(source).name}"] = target.removeprefix("usr/share/doc/bsched/")
    return places


def test_installed_pages_link_to_installed_pages() -> None:
    places = installed_pages()
    assert "CONTRIBUTING.md" in places and len(places) > 12
    for name, place in places.items():
        if name.endswith(".md"):
            for link in re.findall(r"\]\((?!https?:)([^)#]+)", (TOP / name).read_text()):
                target = os.path.normpath(Path(place).parent / link)
                is_source = target.startswith("crates/")  # in a clone alone
                assert is_source or target in places.values(), f"{name} links to {link}"


# ---- Completion


@pytest.mark.parametrize(
    "line, offered",
    [
        ("bsched im", "import"),
        ("bsched import --tables x --k", "--kind"),
        ("bsched import --kind w", "workunits"),
        ("bsched serve --c", "--count"),
        ("bsched-project --a", "--add-bridge"),
        ("bsched-project --c", "--complete"),
        ("bsched-project p", "pair"),
        ("bsched-project pair sums --v", "--vote --vote-seconds"),
    ],
)
def test_completion(line: str, offered: str) -> None:
    assert words_of(line) == offered


# ---- The program and its sources


class Clone:
    """A repository with little in it, and a program that a stand-in for `rt` builds."""

    def __init__(self, folder: Path) -> None:
        self.folder, self.tools = folder / "clone", folder / "tools"
        self.program = self.folder / "crates" / "bsched" / "out" / "bsched"
        self.tools.mkdir()
        (self.tools / "rt").write_text("#!/bin/sh\nmkdir -p out && cat main.rt > out/bsched\n")
        (self.tools / "rt").chmod(0o755)
        for name in ("build", "program"):
            self.write(f"packaging/{name}", (TOP / "packaging" / name).read_text()).chmod(0o755)
        self.write("VERSION", "1.0.0\n")
        self.write("debian/changelog", "bsched (1.0.0) bookworm; urgency=medium\n")
        self.write("debian/control", "Source: bsched\nBuild-Depends: no-such-package\n\nPackage: bsched\n")
        self.write("CHANGELOG.md", "# Changelog\n\n## [Unreleased]\n\n## [1.0.0] - 2026-11-28\n\nFirst.\n")
        self.write("crates/bsched/main.rt", "one\n")
        self.write("crates.txt", "bsched\n")
        self.write("HANDLES", "Handles allowed: Net.\n")
        self.write(".gitignore", "out/\n")
        self.run("git", "init", "--quiet")
        self.commit()
        assert self.run("packaging/program").returncode == 0

    def write(self, name: str, text: str) -> Path:
        """Writes a file."""
        path = self.folder / name
        path.parent.mkdir(parents=True, exist_ok=True)
        path.write_text(text)
        return path

    def run(self, *command: str) -> "subprocess.CompletedProcess[str]":
        """Runs a command in the repository."""
        path = {"PATH": f"{self.tools}:/usr/sbin:/usr/bin:/sbin:/bin", "HOME": str(self.tools)}
        return subprocess.run(command, cwd=self.folder, env=path, capture_output=True, text=True, timeout=600)

    def commit(self) -> None:
        """Commits all files."""
        self.run("git", "add", "--all")
        command = [
            "git",
            "-c",
            "user.name=T",
            "-c",
            "user.email=t@t",
            "commit",
            "--quiet",
            "--message=Change",
        ]
        assert self.run(*command).returncode == 0

    def build(self, *args: str) -> str:
        """Begins to make packages, and returns why that ends. It ends at the latest for want of a package."""
        completed = self.run("packaging/build", *args, "../made")
        assert completed.returncode == 1
        return completed.stderr


@pytest.fixture
def clone(tmp_path: Path) -> Clone:
    """Makes a repository whose commit can be released."""
    return Clone(tmp_path)


GOOD = re.compile("packaging/build: (packages of Debian are missing: .*|dpkg-buildpackage is missing.*)\n")


def change(clone: Clone, name: str, text: str) -> None:
    """Commits a change of a file."""
    clone.write(name, text)
    clone.commit()


@pytest.mark.parametrize(
    "spoil, wanted",
    [
        (lambda clone: clone.write("new", ""), "there are uncommitted changes"),
        (
            lambda clone: change(clone, "CHANGELOG.md", "## [Unreleased]\n\n- More.\n\n## [1.0.0] - 2026\n"),
            "CHANGELOG.md has changes under [Unreleased]",
        ),
        (
            lambda clone: change(clone, "debian/changelog", "bsched (1.0.0) UNRELEASED; urgency=medium\n"),
            "version 1.0.0 is open: debian/changelog has UNRELEASED",
        ),
        (lambda clone: clone.program.write_text("other"), "is not the program of this commit"),
        (lambda clone: change(clone, "crates/bsched/main.rt", "two\n"), "is not the program of this commit"),
        (
            lambda clone: change(clone, "HANDLES", "Handles allowed: none.\n"),
            "is not the program of this commit",
        ),
        (lambda clone: clone.program.with_name("bsched.sources").unlink(), "nothing says from which sources"),
    ],
)
def test_what_is_no_release(clone: Clone, spoil: Callable[[Clone], object], wanted: str) -> None:
    spoil(clone)
    refusal = clone.build()
    assert wanted in refusal and "--trial" in refusal.splitlines()[-1]
    assert GOOD.fullmatch(clone.build("--trial"))


def test_what_is_a_release(clone: Clone) -> None:
    assert GOOD.fullmatch(clone.build())
    change(clone, "README.md", "Other words.\n")
    assert GOOD.fullmatch(clone.build())
    change(clone, "crates/bsched/main.rt", "two\n")
    assert clone.run("packaging/program").returncode == 0
    assert GOOD.fullmatch(clone.build()) and clone.program.read_text() == "two\n"


def test_a_version_that_another_commit_has_is_refused(clone: Clone) -> None:
    tag = [
        "git",
        "-c",
        "user.name=T",
        "-c",
        "user.email=t@t",
        "tag",
        "--annotate",
        "v1.0.0",
        "--message=1.0.0",
    ]
    assert clone.run(*tag).returncode == 0
    assert GOOD.fullmatch(clone.build())  # the tag is on this commit
    change(clone, "README.md", "Other words.\n")
    completed = clone.run("packaging/program")
    assert completed.returncode == 1 and "its tag v1.0.0 is on the commit" in completed.stderr
    assert clone.program.exists()
    assert "its tag v1.0.0 is on the commit" in clone.build() and GOOD.fullmatch(clone.build("--trial"))
    change(clone, "VERSION", "1.1.0\n")
    assert clone.run("packaging/program").returncode == 0


def test_a_version_that_differs_is_refused_in_a_trial_too(clone: Clone) -> None:
    change(clone, "VERSION", "1.0.1\n")
    assert "have different versions" in clone.build() and "have different versions" in clone.build("--trial")


def test_a_version_needs_its_section(clone: Clone) -> None:
    """An open one has its changes under [Unreleased]."""
    log = "# Changelog\n\n## [Unreleased]\n\n- More.\n\n## [1.0.0] - 2026-11-28\n"
    change(clone, "CHANGELOG.md", log)
    change(clone, "VERSION", "1.1.0\n")
    change(clone, "debian/changelog", "bsched (1.1.0) bookworm; urgency=medium\n")
    for refusal in (clone.build(), clone.build("--trial")):
        assert "CHANGELOG.md has no section [1.1.0] for version 1.1.0" in refusal
    change(clone, "debian/changelog", "bsched (1.1.0) UNRELEASED; urgency=medium\n")
    assert GOOD.fullmatch(clone.build("--trial"))
    change(clone, "CHANGELOG.md", "# Changelog\n\n## [1.0.0] - 2026-11-28\n")
    assert "CHANGELOG.md has no section [Unreleased] for version 1.1.0" in clone.build("--trial")


def test_no_program_of_sources_that_are_not_committed(clone: Clone) -> None:
    clone.write("crates/bsched/main.rt", "two\n")
    completed = clone.run("packaging/program")
    assert completed.returncode == 1 and "are not committed" in completed.stderr
    assert clone.program.read_text() == "one\n"


def test_no_program_if_the_proof_fails(clone: Clone) -> None:
    (clone.tools / "rt").write_text("#!/bin/sh\nexit 1\n")
    assert clone.run("packaging/program").returncode == 1
    assert "nothing says from which sources" in clone.build()


@pytest.mark.skipif(shutil.which("make") is None, reason="make is not installed")
def test_no_package_whose_commit_is_unknown(clone: Clone) -> None:
    clone.write("debian/rules", (TOP / "debian" / "rules").read_text())
    noted = clone.folder / "debian" / "PROGRAM"

    def note(*environment: str) -> str:
        """Writes the file PROGRAM, and returns its first line, or the error."""
        noted.unlink(missing_ok=True)
        completed = clone.run(
            "env", *environment, "make", "-f", "debian/rules", "execute_before_dh_installdocs"
        )
        assert (completed.returncode == 0) == noted.exists()
        return noted.read_text().splitlines()[0] if noted.exists() else completed.stderr

    head = clone.run("git", "rev-parse", "HEAD").stdout.strip()
    assert note() == f"commit {head}, not compared with it"
    assert note("COMMIT=abc") == "commit abc"
    without_git = clone.tools / "without_git"
    without_git.mkdir()
    for tool in ("make", "sha256sum", "cut"):
        (without_git / tool).symlink_to(shutil.which(tool) or "")
    assert "no commit is known" in note(f"PATH={without_git}")
    assert note(f"PATH={without_git}", "COMMIT=abc") == "commit abc"
    shutil.rmtree(clone.folder / ".git")
    assert "no commit is known" in note()
    assert note("COMMIT=abc") == "commit abc"


def test_the_manual_has_the_defaults_of_the_units() -> None:
    page = (TOP / "packaging" / "man" / "bsched-tools.1").read_text().replace("\\-", "-")
    text = page[page.index("\n[copy]\n") : page.index("\ncopy_hours")] + "\ncopy_hours = 3\n"
    folder = projects.Project(Path("/nowhere/NAME"))
    stated = tomllib.loads(text)
    default = folder.units()
    assert {name: set(keys) for name, keys in stated.items()} == {
        "copy": {"folder", "keep", "check"},
        "results": {"command"},
        "page": {"folder"},
        "statistics": {"folder", "everybody"},
        "health": {"mail", "copy_hours"},
    }
    assert default == projects.UnitSettings(
        Path(stated["copy"]["folder"]),
        stated["copy"]["keep"],
        stated["copy"]["check"],
        tuple(stated["results"]["command"]),
        Path(stated["page"]["folder"]),
        Path(stated["statistics"]["folder"]),
        stated["statistics"]["everybody"],
        stated["health"]["mail"],
        stated["health"]["copy_hours"],
    )
