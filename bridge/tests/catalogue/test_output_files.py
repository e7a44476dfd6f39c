"""What the catalogue says about output files, and the output that bsched compares."""
import hashlib
import json
import re
import xml.etree.ElementTree as ElementTree
from pathlib import Path

import pytest
from bridges import Bridge
from hypothesis import given as each, strategies as st
from messages import request
from uploading import url_of
from uploads_given import given

from bsched_bridge.catalogue.contents import read_catalogue
from bsched_bridge.catalogue.output_files import result_of, upload_name
from bsched_bridge.uploads.messages import UPLOAD_URL
from bsched_files.catalogue import OutputFile
from bsched_files.file_names import FIRST, MOST_FILES, result_in_file
from bsched_files.texts import WORD
from bsched_files.toml_entries import OperatorFault
from bsched_files.uploads import StoredOutput, compared_text


def test_a_reply_names_the_output_files(file_bridge: Bridge) -> None:
    reply = ElementTree.fromstring(file_bridge.call(request()))
    assert [child.tag for child in reply][-5:] == [
        "app_version",
        "workunit",
        "file_info",
        "file_info",
        "result",
    ]
    first, second = [one for one in reply.findall("file_info") if one.find("upload_when_present") is not None]
    assert [(one.tag, (one.text or "").strip()) for one in first][:-1] == [
        ("name", "u1_0_0"),
        ("generated_locally", "1"),
        ("upload_when_present", "1"),
        ("max_nbytes", "20000"),
        ("url", f"http://127.0.0.1:8081{url_of(file_bridge, 'u1_0_0')}"),
    ]
    token, other = (one.findtext("xml_signature", "").strip() for one in (first, second))
    assert len(token) == 64 and token != other
    references = [[(one.tag, one.text) for one in place] for place in reply.findall("result/file_ref")]
    assert references == [
        [("file_name", "u1_0_0"), ("open_name", "out"), ("copy_file", "1")],
        [("file_name", "u1_0_1"), ("open_name", "log"), ("copy_file", "1"), ("optional", "1")],
    ]


@each(
    st.from_regex(WORD, fullmatch=True),
    st.integers(0, 10**9),
    st.integers(FIRST, MOST_FILES),
    st.integers(0, 19),
)
def test_an_output_file_says_its_result(word: str, number: int, file: int, place: int) -> None:
    """Its name is also the same in a URL, unescaped."""
    result = result_in_file(f"{word}_{number}", file)
    name = upload_name(result, place)
    assert result_of(name) == result
    found = UPLOAD_URL.search(f"https://sums.example/file_upload_handler/{name}/{'0' * 32}")
    assert found is not None and found[1] == name
    assert re.fullmatch(r"[A-Za-z0-9._~+-]+", name)


def test_a_name_that_the_client_would_refuse(file_bridge: Bridge) -> None:
    rows = file_bridge.twin.service.imported
    line = "a..b...c,sum,1,1,3,5,4,86400,60000000000,1000,1000,5000"
    rows(
        "workunits",
        "dots",
        "name,app,min_quorum,target_nresults,max_error_results,max_total_results,"
        f"max_success_results,delay_bound,rsc_fpops_est,rsc_memory_bound,rsc_disk_bound,credit\n{line}\n",
    )
    handed: dict[str, str] = {}
    for number in range(12):
        handed |= given(file_bridge, cpid=f"c{number}", key=("ann-key", "bob-key")[number % 2], seconds=1000)
        if any(name.startswith("a.") for name in handed):
            break
    assert "a.+.b.+.+.c_0_0" in handed and not any(".." in name for name in handed)


@pytest.mark.parametrize(
    "old, new, fault",
    [
        ('open_name = "log"', 'open_name = "out"', "two output files have the open_name out"),
        ('open_name = "log"', 'open_name = "../log"', "open_name is not a file name"),
        ("max_nbytes = 1000", "max_nbytes = 0", "max_nbytes is not within 1"),
        ("max_nbytes = 1000", "size = 1000", "max_nbytes is missing"),
        ("optional = true", 'optional = "yes"', "optional is not true or false"),
        ("optional = true", "other = true", "other is not known here"),
        ("max_nbytes = 20_000", "max_nbytes = 20_000, compare = false", None),
        ('name = "two.txt"', 'name = "two_1_2"', "name ends like that of an output file"),
    ],
)
def test_faulty_output_files(file_project: Path, old: str, new: str, fault: str | None) -> None:
    path = file_project / "catalogue.toml"
    path.write_text(path.read_text().replace(old, new, 1))
    if fault is None:
        assert read_catalogue(path).apps["sum"].output_files[0].is_compared is False
        return
    with pytest.raises(OperatorFault, match=fault):
        read_catalogue(path)


def test_too_many_output_files_and_none_that_is_compared(file_project: Path) -> None:
    path = file_project / "catalogue.toml"
    text, entry = path.read_text(), '{ open_name = "f%d", max_nbytes = 1, compare = %s }'
    head, tail = text.partition("output_files = [")[0], text.partition("optional = true },\n]\n")[2]
    for count, compare, fault in (
        (21, "true", "has more than 20 files"),
        (2, "false", "no file is compared"),
    ):
        entries = ", ".join(entry % (number, compare) for number in range(count))
        path.write_text(f"{head}output_files = [{entries}]\n{tail}")
        with pytest.raises(OperatorFault, match=fault):
            read_catalogue(path)


@pytest.mark.parametrize(
    "count, text",
    [
        (1, "f0 sha256:" + "a" * 64 + " 7"),
        (2, "f0 sha256:" + "a" * 64 + " 7\nf1 sha256:" + "a" * 64 + " 7"),
    ],
)
def test_the_text_of_some_files(count: int, text: str) -> None:
    files = tuple(OutputFile(f"f{number}", 10, False, True) for number in range(count))
    assert compared_text(files, {file.open_name: StoredOutput(7, "a" * 64) for file in files}) == text


def test_the_text_of_many_files_is_its_digest() -> None:
    files = tuple(OutputFile(f"f{number:02}", 10, False, True) for number in range(20))
    stored = {file.open_name: StoredOutput(7, "a" * 64) for file in files}
    lines = "\n".join(f"f{number:02} sha256:{'a' * 64} 7" for number in range(20))
    assert compared_text(files, stored) == f"20 files sha256:{hashlib.sha256(lines.encode()).hexdigest()}"
    assert len(compared_text(files[:13], stored).encode()) == 13 * 77 + 12  # 1,013 bytes
    assert compared_text(files[:14], stored).startswith("14 files sha256:")  # instead of 1,091 bytes


def test_a_file_that_is_not_compared_is_stored_and_left_out() -> None:
    files = OutputFile("out", 10, False, True), OutputFile("log", 10, True, False)
    stored = {"out": StoredOutput(7, "a" * 64), "log": StoredOutput(9, "b" * 64)}
    assert compared_text(files, stored) == "out sha256:" + "a" * 64 + " 7"
    assert json.dumps(compared_text(files, {"out": stored["out"]}))
