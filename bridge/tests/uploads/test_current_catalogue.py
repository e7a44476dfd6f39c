"""The catalogue is read again after an edit of it or of a file that it names. A fault keeps the former
one."""
import logging
import os
import threading
from pathlib import Path
from typing import Any
from xml.etree import ElementTree

import pytest
from bridges import Bridge
from cryptography.hazmat.primitives.asymmetric.rsa import RSAPrivateKey
from messages import FIRST, jobs, request, value

from bsched_bridge.catalogue import contents
from bsched_bridge.catalogue.contents import FileFolder, MissingFile, own_line
from bsched_bridge.common.code_signing import file_md5, signature_text
from bsched_bridge.uploads import current_catalogue
from bsched_bridge.uploads.current_catalogue import CatalogueReader
from bsched_files.project_settings import read_settings
from bsched_files.toml_entries import OperatorFault


@pytest.fixture(autouse=True)
def looks_each_time(monkeypatch: pytest.MonkeyPatch) -> None:
    """Has each request look at all files that the catalogue names."""
    monkeypatch.setattr(current_catalogue, "LOOK_SECONDS", 0.0)


def edit(folder: Path, old: str, new: str) -> None:
    """Edits the catalogue."""
    path = folder / "catalogue.toml"
    text = path.read_text()
    assert old in text
    path.write_text(text.replace(old, new, 1))


def errors(caplog: pytest.LogCaptureFixture) -> list[str]:
    """Returns the error lines of the log."""
    return [one.getMessage() for one in caplog.records if one.levelno == logging.ERROR]


def test_an_edit_counts_for_the_next_job(bridge: Bridge) -> None:
    assert value(bridge.call(request()), "user_friendly_name") == "Sums &amp; more"
    edit(bridge.folder, "Sums & more", "Sums")
    reply = bridge.call(request(hostid=FIRST, listed=["u1_0"]))
    assert (jobs(reply), value(reply, "user_friendly_name")) == (["u2_0"], "Sums")


def test_a_version_that_comes_while_the_bridge_serves(bridge: Bridge, key: RSAPrivateKey) -> None:
    """The scheduler gives it out at once."""
    assert b"u1_0" in bridge.call(request())
    (bridge.folder / "files" / "sum_2").write_text("#!/bin/bash\n")
    text = signature_text(file_md5(bridge.folder / "files" / "sum_2"), key)
    (bridge.folder / "sum_2.signature").write_text(text)
    with (bridge.folder / "catalogue.toml").open("a") as file:
        file.write('\n[[version]]\napp = "sum"\nplatform = "x86_64-pc-linux-gnu"\nversion_num = 2\n')
        file.write('files = [{ name = "sum_2", signature = "sum_2.signature", main_program = true }]\n')
    bridge.twin.service.imported("versions", "more", "app,platform,version_num\nsum,x86_64-pc-linux-gnu,2\n")
    reply = ElementTree.fromstring(bridge.call(request(hostid=FIRST, listed=["u1_0"])))
    assert [file.findtext("name") for file in reply.findall("file_info")] == ["sum_2", "two.txt"]


def test_a_fault_keeps_the_former_catalogue_and_is_logged_once(
    bridge: Bridge, caplog: pytest.LogCaptureFixture
) -> None:
    edit(bridge.folder, 'title = "Sums & more"', "titel = 3")
    for _ in range(3):
        assert value(bridge.call(request()), "code_sign_key") is not None
    path = bridge.folder / "catalogue.toml"
    fault = "titel is not known here: is title meant?"
    assert errors(caplog) == [f"the catalogue stays as it was: {path}: line 6: {fault}"]
    assert bridge.application.catalogue.apps["sum"].title == "Sums & more"
    edit(bridge.folder, "titel = 3", 'title = "Good"')
    assert bridge.application.catalogue.apps["sum"].title == "Good"
    assert len(errors(caplog)) == 1


def test_a_file_that_the_catalogue_names_is_corrected(
    bridge: Bridge, key: RSAPrivateKey, caplog: pytest.LogCaptureFixture
) -> None:
    """A program is replaced before its signature is. Then both fit."""
    program, signature = bridge.folder / "files" / "sum_1", bridge.folder / "sum_1.signature"
    program.write_text("#!/bin/sh\nexit 1\n")
    assert bridge.application.catalogue.versions and bridge.application.catalogue.versions
    assert len(errors(caplog)) == 1 and "line 13: " in errors(caplog)[0]
    before = signature.stat()
    signature.write_text(signature_text(file_md5(program), key))
    os.utime(signature, ns=(before.st_atime_ns, before.st_mtime_ns + 1))  # however soon after the first one
    (version,) = bridge.application.catalogue.versions.values()
    assert version.files[0].file.size == program.stat().st_size
    signature.unlink()
    for _ in range(2):
        assert len(bridge.application.catalogue.versions) == 1
    assert len(errors(caplog)) == 2 and errors(caplog)[1].endswith("sum_1.signature does not exist")


def test_an_input_file_that_comes_later(bridge: Bridge, caplog: pytest.LogCaptureFixture) -> None:
    path = bridge.folder / "files" / "all.txt"
    edit(bridge.folder, "command_line", 'input_files = [{ name = "all.txt" }]\ncommand_line')
    assert bridge.application.catalogue.apps["sum"].work.input_files == ()
    assert "all.txt is not there" in errors(caplog)[0]
    path.write_text("1\n")
    assert [file.name for file in bridge.application.catalogue.apps["sum"].work.input_files] == ["all.txt"]


def test_a_catalogue_that_does_not_fit_the_settings(bridge: Bridge, caplog: pytest.LogCaptureFixture) -> None:
    edit(bridge.folder, "command_line", 'output_files = [{ open_name = "o", max_nbytes = 9 }]\ncommand_line')
    assert bridge.application.catalogue.apps["sum"].output_files == ()
    assert "sum has output files, and the settings have no [uploads]" in errors(caplog)[0]


def test_the_first_catalogue_must_be_good(project: Path) -> None:
    edit(project, "[[app]]", "[[apps]]")
    with pytest.raises(OperatorFault, match="line 10: there is no application sum"):
        CatalogueReader(read_settings(project / "bridge.toml"))


def test_files_that_it_does_not_name_are_no_change(bridge: Bridge, monkeypatch: pytest.MonkeyPatch) -> None:
    monkeypatch.setattr(CatalogueReader, "_read", lambda self: pytest.fail("it was read again"))
    (bridge.folder / "files" / "more").write_text("x")
    (bridge.folder / "files" / "two.txt").write_text("3\n")
    assert bridge.application.catalogue.apps


def test_the_catalogue_is_looked_at_each_time_and_its_files_now_and_then(
    project: Path, monkeypatch: pytest.MonkeyPatch
) -> None:
    monkeypatch.setattr(current_catalogue, "LOOK_SECONDS", 3600.0)
    reader = CatalogueReader(read_settings(project / "bridge.toml"))
    reader.current()
    seen: list[str] = []
    monkeypatch.setattr(current_catalogue, "mark_of", lambda path: seen.append(path.name))
    monkeypatch.setattr(CatalogueReader, "_read", lambda self: None)
    reader.current()
    assert seen == ["catalogue.toml"]


def test_a_large_catalogue_keeps_nobody_waiting(project: Path, monkeypatch: pytest.MonkeyPatch) -> None:
    """One request reads it. Another one waits for a moment, and takes the former one."""
    monkeypatch.setattr(current_catalogue, "WAIT_SECONDS", 0.01)
    reader = CatalogueReader(read_settings(project / "bridge.toml"))
    former, begun, may_end = reader.current(), threading.Event(), threading.Event()
    read = contents.read_catalogue

    def slow(*args: Any) -> Any:
        begun.set()
        assert may_end.wait(60)
        return read(*args)

    monkeypatch.setattr(current_catalogue, "read_catalogue", slow)
    edit(project, "Sums & more", "Sums")
    reading = threading.Thread(target=reader.current)
    reading.start()
    assert begun.wait(60)
    assert reader.current() is former
    may_end.set()
    reading.join(60)
    assert reader.current().apps["sum"].title == "Sums"


# ---- Workunits without an entry


def test_what_is_known_of_files_has_a_limit(project: Path, monkeypatch: pytest.MonkeyPatch) -> None:
    monkeypatch.setattr(contents, "MOST_KNOWN", 3)
    folder = FileFolder(project / "files")
    for number in range(9):
        (project / "files" / f"in_{number}").write_text(str(number))
        assert folder.stored(f"in_{number}").size == 1
    assert len(folder._known) == 3
    assert len(FileFolder(project / "files", former=folder)._known) == 3


def test_command_lines_of_workunits(bridge: Bridge, caplog: pytest.LogCaptureFixture) -> None:
    """Each workunit has a file with the end of its command line."""
    lines = bridge.folder / "lines"
    lines.mkdir()
    (lines / "u1").write_text("-x 3 <&>\n")
    edit(bridge.folder, "command_line", 'command_lines = "lines"\ncommand_line')
    assert value(bridge.call(request()), "command_line") == "--name u1 -x 3 &lt;&amp;&gt;"
    work = bridge.application.catalogue.apps["sum"].work
    for number, text in enumerate((b"a\nb", b"\xff", b"a" * 4097, b"a\0b")):
        (lines / f"bad_{number}").write_bytes(text)
        with pytest.raises(MissingFile, match=f"the command line .*bad_{number}"):
            work.of(f"bad_{number}")
    (lines / "full").write_bytes(b"a" * 4096 + b"\n")
    assert len(own_line(lines / "full")) == 4096
    (lines / "u1").unlink()
    reply = bridge.call(request(hostid=FIRST, listed=[]))
    assert b"The project lacks a file for the job u1_0." in reply
    assert f"the command line {lines / 'u1'} is not in the catalogue or not there" in errors(caplog)[0]


def test_faults_of_the_folder_of_command_lines(project: Path) -> None:
    edit(project, "command_line", 'command_lines = "none"\ncommand_line')
    with pytest.raises(OperatorFault, match="line 7: command_lines: .*none does not exist"):
        contents.read_catalogue(project / "catalogue.toml")
    edit(project, '"none"', '"key"')
    with pytest.raises(OperatorFault, match="line 7: command_lines: .*key is not a folder"):
        contents.read_catalogue(project / "catalogue.toml")
