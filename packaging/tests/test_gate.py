"""Tests the script `test` and the gate, with stand-ins for what they run."""
import os
import shutil
import subprocess
from pathlib import Path

import pytest

TOP = Path(__file__).resolve().parent.parent.parent


@pytest.fixture
def lacking(tmp_path: Path) -> Path:
    """Makes a folder with the script. A module is missing, and apt-get can't install its package."""
    text = (TOP / "test").read_text()
    missing = text.replace("MODULES=(", "MODULES=(no_such_module:no-such-package ")
    assert missing != text
    for name, lines in (
        ("test", missing),
        ("bench/names", ""),
        ("bench/heads", ""),
        ("bin/apt-get", "#!/bin/sh\nexit 100\n"),
        ("bin/rt", "#!/bin/sh\necho 7 passed, 0 failed\n"),
    ):
        path = tmp_path / name
        path.parent.mkdir(exist_ok=True)
        path.write_text(lines)
        path.chmod(0o755)
    return tmp_path


def outcome(folder: Path, *args: str) -> tuple[int, list[str]]:
    """Runs the script, and returns its status and what it prints."""
    path = {"PATH": f"{folder}/bin:/usr/bin:/bin"}
    completed = subprocess.run(
        [str(folder / "test"), *args],
        env=path,
        text=True,
        timeout=600,
        stdout=subprocess.PIPE,
        stderr=subprocess.STDOUT,
    )
    return completed.returncode, completed.stdout.splitlines()


def test_python_tests_that_can_not_run_fail(lacking: Path) -> None:
    status, lines = outcome(lacking, "python")
    assert status == 1 and lines[-1].startswith("test: the Python tests did not run: ")


def test_the_gate_says_at_its_end_that_they_are_skipped(lacking: Path) -> None:
    status, lines = outcome(lacking)
    assert status == 0 and lines[-1] == "7 passed, 0 failed"
    assert lines[-2].startswith("test: the Python tests are skipped: ")


LISTED_PLACES = """#!/bin/sh
while [ "$#" -gt 0 ] && [ "$1" != -- ]; do
  shift
done
for place; do
  [ "$place" = -- ] || echo "$place/part.py"
done
"""


def stand_ins(folder: Path, *failing: str) -> None:
    """Puts stand-ins in place of all that the Python part runs. Lines with one of these texts fail. git lists
    one file in each place that is asked for."""
    text = (TOP / "test").read_text().replace("MODULES=(", "MODULES=() OTHERS=(")
    for name in ("python3", "mypy", "flake8", "black", "shellcheck", "git"):
        text = text.replace(f"/usr/bin/{name}", f"{folder}/bin/{name}")
        path = folder / "bin" / name
        lines = "".join(f'case "{name} $*" in *"{what}"*) exit 1 ;; esac\n' for what in failing)
        path.write_text(f'#!/bin/sh\n[ "$1" != -c ] || exit 0\necho "{name} $*"\n{lines}')
        path.chmod(0o755)
    (folder / "bin" / "git").write_text(LISTED_PLACES)
    (folder / "test").write_text(text)


def test_the_python_part_continues_after_a_failure(lacking: Path) -> None:
    stand_ins(lacking, "loadfile bridge", "mypy tools", "black --quiet --check")
    status, lines = outcome(lacking, "python")
    assert status == 1
    assert any(line.endswith("loadfile packaging") for line in lines)
    assert lines[-3:] == [
        "  black lays out some Python in another way: run ./test format",
        "  the tests of bridge failed",
        "  mypy found errors in tools",
    ]


def test_the_python_part_without_a_failure(lacking: Path) -> None:
    stand_ins(lacking)
    status, lines = outcome(lacking, "python")
    assert status == 0 and lines[-1].startswith("test: the Python part is good, after ")


def test_one_package(lacking: Path) -> None:
    stand_ins(lacking)
    status, lines = outcome(lacking, "tools")
    assert status == 0 and [line.split()[0] for line in lines] == ["mypy", "flake8", "python3"]
    assert all("bridge" not in line for line in lines)
    stand_ins(lacking, "flake8 tools")
    status, lines = outcome(lacking, "tools")
    assert status == 1 and lines[-1] == "  flake8 found errors in tools"


SHOWN_FOLDER = """#!/bin/sh
[ "$1" != -c ] || exit 0
for word; do
  case $word in
    --maxprocesses=*) echo "$word" ;;
    --basetemp=*)
      folder=${word%/*}
      folder=${folder#*=}
      echo "$folder"
      stat -c %a "$folder"
      touch "$folder/file"
      ;;
  esac
done
"""


def test_other_users_may_enter_the_folder_of_the_tests(lacking: Path) -> None:
    """It is gone afterwards. There are no more processes than cores."""
    stand_ins(lacking)
    (lacking / "bin" / "python3").write_text(SHOWN_FOLDER)
    status, lines = outcome(lacking, "files")
    folder, mode, most = lines[-3:]
    assert (status, mode, most) == (0, "755", f"--maxprocesses={len(os.sched_getaffinity(0))}")
    assert folder.startswith("/") and not Path(folder).exists()


def write_files(folder: Path) -> None:
    """Makes files of several kinds, and has git list them."""
    for name, line in (
        ("run", "#!/usr/bin/env python3\n"),
        ("part.py", "x = 1\n"),
        ("other", "#!/bin/sh\n"),
        ("more", "#!/usr/bin/env bash\n"),
        ("notes", ""),
        ("notes.sh", "#!/bin/sh\n"),
        ("debian/tools.postinst", "#!/bin/sh\n"),
    ):
        path = folder / name
        path.parent.mkdir(exist_ok=True)
        path.write_text(line)
    names = "run part.py other more notes notes.sh debian/tools.postinst gone"
    (folder / "bin" / "git").write_text(f"#!/bin/sh\nprintf '%s\\n' {names}\n")


def test_all_python_is_laid_out(lacking: Path) -> None:
    stand_ins(lacking)
    write_files(lacking)
    assert outcome(lacking, "format") == (0, ["black --quiet run part.py"])


def test_all_shell_scripts_are_checked(lacking: Path) -> None:
    stand_ins(lacking)
    write_files(lacking)
    wanted = "shellcheck --check-sourced other more debian/tools.postinst"
    status, lines = outcome(lacking, "shells")
    assert status == 0 and lines[0] == wanted
    stand_ins(lacking, "check-sourced")
    write_files(lacking)
    status, lines = outcome(lacking, "shells")
    assert status == 1 and lines[-1] == "  shellcheck found faults in a shell script"


def committed(folder: Path, *words: str) -> int:
    """Commits without changes, and returns the status."""
    command = ["git", "-c", "user.name=Ann", "-c", "user.email=ann@sums.example", "commit", "--allow-empty"]
    environment = {"PATH": f"{folder}/bin:/usr/bin:/bin", "HOME": str(folder)}
    return subprocess.run([*command, "-qm", "x", *words], cwd=folder, env=environment, timeout=600).returncode


@pytest.fixture
def clone(lacking: Path) -> Path:
    """Makes a repository of the folder with the script, and stand-ins for all but git."""
    stand_ins(lacking)
    (lacking / "bin" / "git").unlink()
    subprocess.run(["git", "init", "-q"], cwd=lacking, check=True, timeout=600)
    return lacking


def test_a_commit_is_checked_before_it_is_made(clone: Path) -> None:
    assert committed(clone) == 0
    for _ in range(2):
        status, lines = outcome(clone, "hook")
        assert status == 0 and "--no-verify" in lines[-1]
    assert committed(clone) == 0
    stand_ins(clone, "black --quiet --check")
    (clone / "bin" / "git").unlink()
    assert committed(clone) == 1
    assert committed(clone, "--no-verify") == 0
    status, lines = outcome(clone, "commit")
    assert status == 1 and lines[-1].endswith("git commit --no-verify")


def test_a_hook_of_somebody_else_stays(clone: Path) -> None:
    hook = clone / ".git" / "hooks" / "pre-commit"
    hook.parent.mkdir(exist_ok=True)
    hook.write_text("#!/bin/sh\n")
    status, lines = outcome(clone, "hook")
    assert status == 1 and lines[-1].endswith("pre-commit exists already, and is not from this script")
    assert hook.read_text() == "#!/bin/sh\n"


@pytest.fixture
def gate(lacking: Path) -> Path:
    """Makes a folder with the gate too."""
    stand_ins(lacking)
    (lacking / ".ci").mkdir()
    shutil.copy(TOP / ".ci" / "run", lacking / ".ci" / "run")
    return lacking


def gate_outcome(folder: Path) -> tuple[int, str]:
    """Runs the gate, and returns its status and its last line."""
    completed = subprocess.run(
        [folder / ".ci" / "run"],
        env={"PATH": f"{folder}/bin:/usr/bin:/bin"},
        text=True,
        timeout=600,
        stdout=subprocess.PIPE,
        stderr=subprocess.STDOUT,
    )
    return completed.returncode, completed.stdout.splitlines()[-1]


def test_the_gate_with_the_kit(gate: Path) -> None:
    assert gate_outcome(gate) == (0, "7 passed, 0 failed")


def test_the_gate_without_the_kit_runs_the_python_part(gate: Path) -> None:
    (gate / "bin" / "rt").unlink()
    wanted = "gate: only the Python part ran, and it is good: proofs need the Rattle kit, with its command rt"
    assert gate_outcome(gate) == (0, wanted)
    stand_ins(gate, "mypy tools")
    assert gate_outcome(gate) == (1, "  mypy found errors in tools")


def test_proofs_alone(lacking: Path) -> None:
    assert outcome(lacking, "proofs") == (0, ["7 passed, 0 failed"])


def test_a_bad_word(lacking: Path) -> None:
    assert outcome(lacking, "nothing")[0] == 64
