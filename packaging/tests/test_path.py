"""Tests the pages whose commands packaging/try runs, and how it reads them."""
import subprocess
from pathlib import Path

import pytest
from debian_trial.path import Block, steps_of

TOP = Path(__file__).resolve().parent.parent.parent
PAGE, HUNDRED = TOP / "docs" / "FIRST_VOLUNTEER.md", TOP / "docs" / "FIRST_HUNDRED_JOBS.md"


def test_the_page_has_twelve_steps_with_commands() -> None:
    steps = steps_of(PAGE)
    assert [step.number for step in steps] == list(range(1, 13))
    assert all(step.blocks for step in steps)
    blocks = [block for step in steps for block in step.blocks]
    assert [block.commands.split()[0] for block in blocks if not block.is_run] == ["certbot"]
    assert [block.commands.split()[0] for block in blocks if block.is_repeated] == ["systemctl"]


def test_the_hundred_jobs_take_ten_steps() -> None:
    steps = steps_of(HUNDRED)
    assert [step.number for step in steps] == list(range(1, 11))
    blocks = [block for step in steps for block in step.blocks]
    assert len(blocks) == 13 and all(block.is_run for block in blocks)
    assert ["bsched-tools progress" in block.commands for block in blocks if block.is_repeated] == [
        True,
        True,
    ]


def commands_of(blocks: list[str]) -> list[str]:
    """Returns the commands in blocks of a page, in order. A command may have several lines."""
    lines = "\n".join(blocks).replace("\\\n", " ").splitlines()
    return [" ".join(line.split()) for line in lines if line and not line.startswith("#")]


def test_readme_has_the_commands_of_the_hundred_jobs() -> None:
    """packaging/try runs that page, so what README shows of it is run, too."""
    section = (TOP / "README.md").read_text().partition("\n## A program and a folder of inputs\n")[2]
    shown = commands_of([section.partition("```sh\n")[2].partition("```")[0]])
    run = iter(commands_of([block.commands for step in steps_of(HUNDRED) for block in step.blocks]))
    assert [command for command in shown if command not in run] == []
    assert [command.split()[:2] for command in shown if command.startswith("bsched-tools")] == [
        ["bsched-tools", name] for name in ("app", "submit", "progress", "collect")
    ]


@pytest.mark.parametrize("page", [PAGE, HUNDRED])
def test_each_block_is_a_script(page: Path) -> None:
    for step in steps_of(page):
        for block in step.blocks:
            completed = subprocess.run(["bash", "-n"], input=block.commands, text=True, capture_output=True)
            assert (completed.returncode, completed.stderr) == (0, ""), step.title


@pytest.mark.parametrize(
    "output, missing",
    [
        ("a 1\nmore\nb\n", None),
        ("b\na 1\n", "b"),
        ("a 1\n", "b"),
        ("a\nb\n", "a .."),
        ("", "a .."),
    ],
)
def test_what_a_block_prints(output: str, missing: str | None) -> None:
    assert Block("", printed=["a ..", "..", "b"]).missing_line(output) == missing
