"""Applications and versions that are added."""
import os
import tomllib
from collections.abc import Callable
from pathlib import Path
from typing import Any

import pytest
from small_project import TOOLS, rows_of
from work_project import CATALOGUE, PLATFORM, WorkProject
from work_tried import NAME, run_here

from bsched_bridge.common.code_signing import file_md5, read_private_key, signature_text, write_new_keys
from bsched_tools import apps, catalogue_file, projects
from bsched_tools.catalogue_file import ProjectCatalogue


# ---- Applications


def test_an_application_is_added(bare: WorkProject) -> None:
    """The operator's comments and order stay, and the bridge takes the catalogue."""
    words = (
        "--output",
        "out:1M",
        "--output",
        "log:2k:optional:ignored",
        "--memory",
        "200M",
        "--title",
        "Counts",
    )
    line = f"count: version 1 for {PLATFORM} is added: {NAME}\n"
    assert bare.app(*words) == (0, line, "")
    assert bare.catalogue.read_text().startswith(CATALOGUE)
    catalogue = ProjectCatalogue(projects.Project(bare.folder))
    app = catalogue.app("count")
    assert app is not None and app.members == {
        "name": "count",
        "title": "Counts",
        "input_files": [{"name": "{workunit}.in", "open_name": "in"}],
        "output_files": [
            {"open_name": "out", "max_nbytes": 10**6},
            {"open_name": "log", "max_nbytes": 2000, "optional": True, "compare": False},
        ],
        "rsc_memory_bound": 2 * 10**8,
    }
    (version,) = tomllib.loads(bare.catalogue.read_text())["version"]
    file = {"name": NAME, "signature": f"{NAME}.signature", "main_program": True}
    assert version == {"app": "count", "platform": PLATFORM, "version_num": 1, "files": [file]}
    bare.end()
    rows = rows_of(
        bare.folder / "project.db", "SELECT app.name, platform, num FROM version JOIN app ON app.id = app_id"
    )
    assert ("count", PLATFORM, 1) in rows


def test_the_same_command_adds_nothing_and_a_new_program_is_a_new_version(work: WorkProject) -> None:
    before = work.state()
    outcome = work.app("--output", "out:1M")
    assert outcome == (0, f"count: version 1 for {PLATFORM} was there already: {NAME}\n", "")
    assert work.state() == before
    work.program.write_text("#!/usr/bin/python3\nprint(2)\n")
    assert "version 2 for" in work.app()[1]
    assert "version 2 for windows_x86_64" in work.app("--platform", "windows_x86_64")[1]
    assert "version 2 for" in work.app()[1] and "already" in work.app()[1]


def test_further_files(bare: WorkProject, tmp_path: Path) -> None:
    """A program that the main program starts, and a file with another name."""
    helper, data = tmp_path / "helper", tmp_path / "data 1"
    helper.write_text("#!/bin/sh\n")
    helper.chmod(0o755)
    data.write_text("1\n")
    words = "--file", helper, "--file", f"{data}:data", "--command-line", "./helper"
    assert bare.app(*words)[0] == 0
    (version,) = tomllib.loads(bare.catalogue.read_text())["version"]
    front = f"count_1_{PLATFORM}"
    assert version["files"][1:] == [
        {
            "name": f"{front}_helper",
            "signature": f"{front}_helper.signature",
            "executable": True,
            "open_name": "helper",
        },
        {"name": f"{front}_data", "signature": f"{front}_data.signature", "open_name": "data"},
    ]
    assert "already" in bare.app(*words)[1]


def test_a_signature_from_another_machine(bare: WorkProject) -> None:
    """The private key is elsewhere. The signature of another file is refused, and the right one is taken."""
    words = "app", "count", "--program", bare.program
    for _ in range(2):
        status, output, fault = bare.tools(*words)
        assert (status, fault) == (1, "bsched-tools: count: 1 of 1 files are not signed yet\n")
        assert f"  bsched-bridge sign {NAME} --key code_sign_private > {NAME}.signature\n" in output
    assert bare.catalogue.read_text() == CATALOGUE and (bare.files / NAME).exists()
    key, signature = read_private_key(bare.key.read_text()), bare.bridge / f"{NAME}.signature"
    signature.write_text(signature_text("0" * 32, key))
    before = bare.state()
    status, output, fault = bare.tools(*words)
    assert status == 1 and f"is not the signature of {NAME} by the key" in fault and fault.count("\n") == 1
    assert bare.state() == before
    signature.write_text(signature_text(file_md5(bare.files / NAME), key))
    assert bare.tools(*words) == (0, f"count: version 1 for {PLATFORM} is added: {NAME}\n", "")


def test_a_version_that_waits_for_its_signature_is_not_replaced(bare: WorkProject) -> None:
    """Another program gets another number. The one that waited is the newest when it is asked for again."""
    words = "app", "count", "--program", bare.program
    assert bare.tools(*words)[0] == 1
    other = bare.program.with_name("other.py")
    other.write_text("#!/usr/bin/python3\n")
    assert "version 2 for" in bare.tools("app", "count", "--program", other, "--key", bare.key)[1]
    assert f"bsched-bridge sign count_3_{PLATFORM}.py" in bare.tools(*words)[1]


APP_FAULTS = [
    (["--output", "out"], "write its name and the most bytes that it may have, such as out:10M"),
    (["--output", "a b:3"], "--output a b:3: write its name"),
    (["--agreement", "within"], "--agreement within: write exact, or within:N"),
    (["--platform", "a b"], "--platform 'a b': it must have 1 to 64 letters"),
    (["--file", "/none"], "/none: No such file or directory"),
    (["--input", "a/b"], "--input 'a/b': it is not a file name"),
    (["--output", "out:2G"], "the bridge refuses it: "),
]


@pytest.mark.parametrize("words, fault", APP_FAULTS)
def test_faults_of_an_application_change_nothing(bare: WorkProject, words: list[str], fault: str) -> None:
    before = bare.state()
    status, output, line = bare.app(*words)
    assert (status, output) == (1, "") and fault in line and line.count("\n") == 1
    assert bare.state() == before


def test_other_faults_of_an_application(work: WorkProject, tmp_path: Path) -> None:
    """The key of another project, another agreement, other outputs, and no key at all."""
    other = tmp_path / "other"
    write_new_keys(other, tmp_path / "public")
    before = work.state()
    work.program.write_text("#!/usr/bin/python3\nprint(3)\n")
    for option, value, fault in (
        ("--key", other, "is not the signature of"),
        ("--key", work.program, "count.py"),
        ("--agreement", "within:3", "it exists with the agreement exact, which can't be changed"),
        ("--output", "out:2M", "count is there with another output_files: edit it there"),
    ):
        status, output, line = work.app(option, value)
        assert (status, output) == (1, "") and fault in line and line.count("\n") == 1
        assert work.state() == before
    (work.bridge / "code_sign_public").unlink()
    status, _, line = work.app()
    assert status == 1 and "bsched-bridge keygen" in line


# ---- Stops


def test_a_stop_of_app_at_each_step(
    bare: WorkProject, monkeypatch: pytest.MonkeyPatch, capsys: pytest.CaptureFixture[str]
) -> None:
    """Each step of `app` fails once. The same command completes it, and makes one version."""

    class Stop(BaseException):
        """Raised in the place of a kill."""

    left = 0

    def steps_before(function: Callable[..., Any]) -> Callable[..., Any]:
        def stepped(*args: Any, **more: Any) -> Any:
            nonlocal left
            if left == 0:
                raise Stop
            left -= 1
            return function(*args, **more)

        return stepped

    monkeypatch.setenv("PYTHONPATH", f"{TOOLS.parent / 'bridge'}:{TOOLS.parent / 'files'}")
    checked = catalogue_file.check_by_bridge
    monkeypatch.setattr(catalogue_file, "check_by_bridge", lambda *_: None)
    monkeypatch.setattr(apps.Addition, "undo", lambda _addition: None)  # a kill undoes nothing
    for module, name in ((os, "replace"), (catalogue_file, "check_by_bridge"), (apps, "import_rows")):
        monkeypatch.setattr(module, name, steps_before(getattr(module, name)))
    monkeypatch.setattr(apps.Addition, "sign", steps_before(apps.Addition.sign))
    data = bare.folder / "data"
    data.write_text("1")
    stopped = 0
    for number in range(100):
        words = ["app", f"a{number}", "--project", f"{bare.folder}/", "--program", bare.program]
        words += ["--file", data, "--key", bare.key]
        left = number
        try:
            run_here(capsys, *words)
            break
        except Stop:
            stopped += 1
        left = 1000
        assert f"a{number}: version 1 for {PLATFORM} is added" in run_here(capsys, *words)[1]
    assert stopped > 7
    checked(projects.Project(bare.folder), bare.catalogue, bare.catalogue)
    versions = tomllib.loads(bare.catalogue.read_text())["version"]
    names = [f"a{number}" for number in range(stopped + 1)]
    assert [(one["app"], one["version_num"]) for one in versions] == [(name, 1) for name in names]
    bare.end()
    query = "SELECT app.name, num FROM version JOIN app ON app.id = app_id ORDER BY version.id"
    assert rows_of(bare.folder / "project.db", query)[2:] == [(name, 1) for name in names]
