"""Tests `check`: it refuses what bsched refuses as bad_csv, and says where and why."""
import csv
import io
import json
from pathlib import Path

import pytest
from hypothesis import given
from hypothesis import strategies as st
from plain_formats import Refused, rows_of
from small_project import WORKUNITS, tools

from bsched_tools import import_files

GOOD = "w,dock,2,2,3,8,6,7200,3600000000000,1000,1000,5000"


def faults_of(text: str | bytes) -> list[str]:
    """Returns the faults of a file with a text."""
    content = text if isinstance(text, bytes) else text.encode()
    file = import_files.read_import(Path("x.csv"), content)
    return [file] if isinstance(file, str) else list(import_files.faults_of_rows(file))


@pytest.mark.parametrize(
    "text, fault",
    [
        ("", "it is empty: "),
        ("\n\n", "it is empty: "),
        ("authenticator;name\nk;Ann\n", "line 1: semicolons separate the fields: write commas"),
        ("authenticator\tname\n", "line 1: tabs separate the fields: write commas"),
        ("authenticator,Name\n", "line 1: column 2 is 'Name', and must be 'name'"),
        ("ann,Ann\n", "line 1: the first line must name the columns: authenticator,name or "),
        (
            "app,platform\n",
            "line 1: there are 2 columns, and versions have 3 or 4: app,platform,version_num or ",
        ),
        ("app,platform,version_num,class\n", "line 1: column 4 is 'class', and must be 'version_class'"),
        ("authenticator,name\nk,Ann,x\n", "line 2: there are 3 fields, and the first line has 2"),
        ("authenticator,name\nk 1,Ann\n", "line 2: authenticator is 'k 1', and must be 1 to 64 letters"),
        ("authenticator,name\nk,\n", "line 2: name is '', and must have 1 to 64 bytes"),
        ("authenticator,name\nk,Ann\nk,Bob\n", "line 3: k is already on line 2"),
        ("name,agreement\nsum,equal\n", "line 2: agreement is 'equal', and must be exact, or within:n"),
        (
            f"{WORKUNITS}\n{GOOD}\n\n{GOOD.replace('w,', 'v,').replace('3600000000000', '1e10')}\n",
            "line 4: rsc_fpops_est is '1e10', and must be a whole number from 1 to 1000000000000000000",
        ),
        (
            f"{WORKUNITS}\n{GOOD.replace('dock,2,2', 'dock,4,2')}\n",
            "line 2: target_nresults is '2', and must be a whole number from min_quorum, which is 4, to 100",
        ),
        (f"{WORKUNITS},marked\n{GOOD},01\n", "line 2: marked is '01', and must be 0 or 1"),
        (b"authenticator,name\nk,\xff\n", "line 2: name is '\\udcff', and must be UTF-8"),
    ],
)
def test_faults_with_their_lines(text: str | bytes, fault: str) -> None:
    assert faults_of(text)[0].startswith(fault)


def test_a_record_of_several_lines() -> None:
    assert faults_of('authenticator,name\nk,"Ann\nof"\nk 2,Bob\n')[0].startswith("line 4: authenticator")


@pytest.mark.parametrize(
    "text",
    [
        "authenticator,name\n",
        "\ufeffauthenticator,name\r\nk,Ann\r\n",
        'name,agreement\nsum,"within:2"\n',
        f"{WORKUNITS}\n{GOOD}",
        f"{WORKUNITS},marked\n{GOOD},1",
        "app,platform,version_num\ndock,linux,1\n",
    ],
)
def test_good_files(text: str) -> None:
    assert faults_of(text) == []


# values at the edges of their ranges, and odd ones
VALUES = st.sampled_from(
    [
        "",
        "0",
        "1",
        "2",
        "100",
        "101",
        "01",
        "1e10",
        "-1",
        "x",
        "a b",
        "exact",
        "within:1000000000",
        "within:1000000001",
        "within:01",
        "1000000",
        "1000001",
        "100000000",
        "100000001",
        "1000000000000000000",
        "1000000000000000001",
        "9" * 30,
        "q" * 64,
        "q" * 65,
        "\u00e9" * 32,
        "\u00e9" * 33,
        "'",
        '"',
        "a\nb",
    ]
)


@given(st.data())
def test_it_refuses_what_bsched_refuses(data: st.DataObject) -> None:
    """The plain scheduler reads the same rows, and its first faulty row and column are those of the first
    line."""
    kind = import_files.KINDS[data.draw(st.sampled_from(sorted(import_files.KINDS)))]
    header = data.draw(st.sampled_from(kind.headers()))
    good = {"name": "w", "agreement": "exact", "authenticator": "k", "app": "dock", "platform": "linux"}
    rows = []
    for number in range(data.draw(st.integers(0, 3))):
        row = [good.get(name, "1") for name in header]
        row[0] = f"{row[0]}{number}"
        for _ in range(data.draw(st.integers(0, 2))):
            row[data.draw(st.integers(0, len(row) - 1))] = data.draw(VALUES)
        rows.append(
            row[: data.draw(st.integers(len(row) - 1, len(row)))] if data.draw(st.booleans()) else row
        )
    file = io.StringIO()
    csv.writer(file, lineterminator="\r\n").writerows([header, *rows])
    found = import_files.read_import(Path("x.csv"), file.getvalue().encode())
    assert isinstance(found, import_files.ImportFile) and found.kind == kind
    faults = [fault for row in found.rows for fault in import_files.row_faults(row, found.header, kind)]
    try:
        rows_of(kind.name, file.getvalue())
        assert faults == []
    except Refused as refusal:
        fields = json.loads(refusal.body)
        line = found.rows[fields["row"] - 1].line
        column = header[fields["column"] - 1] if fields["column"] else "there are"
        assert faults[0].startswith(f"line {line}: {column} ")


def test_the_command(tmp_path: Path) -> None:
    good, bad = tmp_path / "good.csv", tmp_path / "bad.csv"
    good.write_text("name,agreement\nsum,exact\n")
    bad.write_text("authenticator,name\n" + "a b,Ann\n" * 30)
    assert tools("check", good) == (0, f"{good}: good: 1 rows of apps\n", "")
    status, output, fault = tools("check", good, bad)
    lines = output.splitlines()
    assert (status, fault, len(lines)) == (1, "", 22)
    wanted = "line 2: authenticator is 'a b', and must be 1 to 64 letters, digits, '_', '-' or '.'"
    assert lines[0] == f"{bad}: {wanted}"
    assert lines[20:] == [f"{bad}: there are more faults", f"{good}: good: 1 rows of apps"]
    status, output, fault = tools("check", tmp_path / "none.csv")
    assert status == 1 and fault == f"bsched-tools: {tmp_path}/none.csv: No such file or directory\n"
