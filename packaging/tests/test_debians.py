"""Tests which systems the trials know, and that the scripts refuse what they can't do in one line."""
import subprocess
from pathlib import Path

import pytest
from debian_trial import debian
from debian_trial.debian import DEBIANS, SUITES, TrialFault, new_root
from project_machine import TOP

SCRIPTS = ("test_suites", "try", "try_image")


def test_the_documents_name_each_debian() -> None:
    numbers = " or ".join(suite.title.removeprefix("Debian ") for suite in DEBIANS.values())
    for page in ("README.md", "docs/FIRST_VOLUNTEER.md", "docs/FIRST_HUNDRED_JOBS.md"):
        assert f"Debian {numbers}" in (TOP / page).read_text()


def test_each_script_takes_each_debian() -> None:
    for script in SCRIPTS:
        words = [str(TOP / "packaging" / script), "--help"]
        shown = subprocess.run(words, capture_output=True, text=True, timeout=600, check=True).stdout
        assert all(suite in shown for suite in DEBIANS)
    assert set(SUITES) - set(DEBIANS) == {"noble"}


@pytest.mark.parametrize("script", SCRIPTS)
def test_a_script_without_packages_ends_with_one_line(script: str, tmp_path: Path) -> None:
    """It says so whether it may run as this user or not."""
    words = [
        str(TOP / "packaging" / script),
        *(["--packages"] if script == "test_suites" else []),
        str(tmp_path),
    ]
    done = subprocess.run(words, capture_output=True, text=True, timeout=600)
    assert (done.returncode, done.stdout) == (64, "")
    assert done.stderr.startswith(f"packaging/{script}: ") and done.stderr.count("\n") == 1


@pytest.fixture
def commands(monkeypatch: pytest.MonkeyPatch) -> list[list[str]]:
    """Returns the list to which the commands of a trial go, in place of being run."""
    called: list[list[str]] = []

    def noted(command: list[str], seconds: int = 60) -> str:
        called.append(command)
        return ""

    monkeypatch.setattr(debian, "run", noted)
    monkeypatch.setattr("shutil.copy", lambda *args: None)
    return called


def test_a_debian_comes_from_the_mirror_that_is_named(commands: list[list[str]], tmp_path: Path) -> None:
    new_root(tmp_path / "root", "trixie", "http://near.example/debian", "git")
    new_root(tmp_path / "root", "trixie", None, "git")
    assert [command[-3:] for command in commands] == [
        ["trixie", str(tmp_path / "root"), "http://near.example/debian"],
        ["trixie", str(tmp_path / "root"), "http://deb.debian.org/debian"],
    ]
    assert all("--components=main" in command for command in commands)


def test_ubuntu_needs_the_keys_of_its_archive(
    commands: list[list[str]], tmp_path: Path, monkeypatch: pytest.MonkeyPatch
) -> None:
    keyring = tmp_path / "keys.gpg"
    ubuntu = debian.Suite("Ubuntu", "http://archive.example/ubuntu", "main,universe", keyring)
    monkeypatch.setitem(SUITES, "noble", ubuntu)
    with pytest.raises(TrialFault, match="keys of its archive"):
        new_root(tmp_path / "root", "noble", None, "git")
    keyring.touch()
    new_root(tmp_path / "root", "noble", None, "git")
    assert commands == [
        [
            *("mmdebstrap", "--quiet", "--variant=apt", "--include=git", "--components=main,universe"),
            *(f"--keyring={keyring}", "noble", str(tmp_path / "root"), "http://archive.example/ubuntu"),
        ]
    ]
