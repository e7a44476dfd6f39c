"""The catalogue, and its faults with their lines."""
import re
from pathlib import Path

import pytest

from bsched_bridge.catalogue.contents import read_catalogue
from bsched_bridge.common.code_signing import new_key, signature_text
from bsched_files.toml_entries import OperatorFault


def test_a_catalogue(project: Path) -> None:
    catalogue = read_catalogue(project / "catalogue.toml")
    app = catalogue.apps["sum"]
    assert catalogue.work(app, "u1").command_line == "--name u1"
    assert catalogue.work(app, "u2").command_line == "--two <2>"
    assert catalogue.work(app, "u2").input_files[0].open_name == "numbers"
    assert catalogue.versions["sum", "x86_64-pc-linux-gnu", 1].files[0].is_main_program


MORE_WORK = '\n[[workunit]]\nname = "u3"\n'
CATALOGUE_FAULTS = [
    ('"key"', '"nothing"', 1, "code_sign_key: .*nothing does not exist"),
    ('"key"', '"files/two.txt"', 1, "code_sign_key: .* its first line is not 1024"),
    ('files = "files"', "", 1, "files is missing"),
    ('name = "sum"', 'name = "s m"', 5, "name is not 1 to 64"),
    ('title = "Sums & more"', 'title = ""', 6, "title is empty"),
    ('title = "Sums & more"', "rsc_disk_bound = 0", 6, "rsc_disk_bound is not within"),
    ('title = "Sums & more"', 'titel = "x"', 6, "titel is not known here"),
    ('title = "Sums & more"', 'input_files = ["x"]', 6, "input_files is not an array of tables"),
    ('title = "Sums & more"', 'input_files = [{ name = "../key" }]', 6, "name is not a file name"),
    ('title = "Sums & more"', 'input_files = [{ name = ".hidden" }]', 6, "name is not a file name"),
    ('title = "Sums & more"', 'input_files = [{ name = "none.txt" }]', 6, "none.txt is not there"),
    ('"--name {workunit}"', '"a\\nb"', 7, "command_line has more than one line"),
    ('app = "sum"', 'app = "other"', 10, "there is no application other"),
    ('platform = "x86_64-pc-linux-gnu"', "", 9, "platform is missing"),
    ("version_num = 1", "version_num = 0", 12, "version_num is not within 1 to 1000000"),
    ('name = "sum_1"', 'name = "sum_2"', 13, "sum_2 is not there"),
    ('"sum_1.signature"', '"none"', 13, "signature: .*none does not exist"),
    ('"sum_1.signature"', '"key"', 13, "key is not the signature of sum_1"),
    (", main_program = true", "", 13, "not exactly one of the files has main_program"),
    ("main_program = true", 'main_program = "yes"', 13, "main_program is not true or false"),
    ('name = "u2"', "", 15, "name is missing"),
    ('"two.txt"', '"three.txt"', 18, "three.txt is not there"),
    ('open_name = "numbers"', 'open_name = "a/b"', 18, "open_name is not a file name"),
    (
        'open_name = "numbers" }]',
        'open_name = "numbers" }]\n' + MORE_WORK + MORE_WORK,
        23,
        "this workunit is already on line 20",
    ),
    (
        'open_name = "numbers" }]',
        'open_name = "numbers" }]\n[[app]]\nname = "sum"',
        19,
        "this app is already on line 4",
    ),
    (
        'open_name = "numbers" }]',
        'open_name = "numbers" }]\n[[works]]\nname = "sum"',
        19,
        "works is not known here",
    ),
    ("[[app]]", "[app]", 4, "app is not an array of tables"),
]


@pytest.mark.parametrize("old, new, line, what", CATALOGUE_FAULTS)
def test_faulty_catalogues(project: Path, old: str, new: str, line: int, what: str) -> None:
    path = project / "catalogue.toml"
    path.write_text(path.read_text().replace(old, new, 1))
    with pytest.raises(OperatorFault) as raised:
        read_catalogue(path)
    assert re.search(what, str(raised.value))
    assert str(raised.value).startswith(f"{path}: line {line}: ")


def test_a_program_that_was_changed_after_it_was_signed(project: Path) -> None:
    (project / "files" / "sum_1").write_text("#!/bin/sh\nrm -rf /\n")
    with pytest.raises(OperatorFault, match="line 13: .* is not the signature of sum_1"):
        read_catalogue(project / "catalogue.toml")


def test_a_signature_of_another_key(project: Path) -> None:
    from bsched_bridge.common.code_signing import file_md5

    (project / "sum_1.signature").write_text(signature_text(file_md5(project / "files" / "sum_1"), new_key()))
    with pytest.raises(OperatorFault, match="line 13"):
        read_catalogue(project / "catalogue.toml")


@pytest.mark.parametrize(
    "name, message",
    [
        ("key", "code_sign_key: .*key can't be read"),
        ("sum_1.signature", "the signature .* can't be read"),
    ],
)
def test_files_of_the_catalogue_that_cant_be_read(project: Path, name: str, message: str) -> None:
    (project / name).write_bytes(b"\xff")
    with pytest.raises(OperatorFault, match=message):
        read_catalogue(project / "catalogue.toml")


def test_a_program_that_cant_be_read(project: Path, monkeypatch: pytest.MonkeyPatch) -> None:
    def fails(_path: Path) -> None:
        raise OSError("no such device")

    monkeypatch.setattr("bsched_bridge.catalogue.contents.file_md5", fails)
    with pytest.raises(OperatorFault, match="sum_1 is not there, or can't be read"):
        read_catalogue(project / "catalogue.toml")
