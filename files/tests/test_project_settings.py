"""Tests how single settings of a bridge are read, and that they are those of the whole file."""
from pathlib import Path

import pytest

from bsched_files.project_settings import (
    MOST_HEAD,
    NO_UPLOADS,
    PRINTED,
    RESULT_BYTES,
    BridgeFile,
    file_of,
    printed,
    read_settings,
)
from bsched_files.toml_entries import OperatorFault

SETTINGS = """\
name = "Sums"
url = "https://sums.example/project/"
listen = "127.0.0.1:8081"
scheduler = "127.0.0.1:8080"
operator_key = "change-this-key"
catalogue = "catalogue.toml"
state = "bridge.db"
"""
# ways to write the same table
UPLOADS = [
    '[uploads]\nfolder = "u"\nmost_bytes = 1_000_000_000\nmost_result_bytes = 50_000_000\n',
    'uploads = { folder = "u", most_bytes = 1000000000, most_result_bytes = 50_000_000 }\n',
    'uploads.folder = "u"\nuploads.most_bytes = 1_000_000_000\nuploads.most_result_bytes = 0x2faf080\n',
    "[ 'uploads' ]\n  \"folder\" = 'u'\n  most_bytes = +1000000000\n  'most_result_bytes' = 50_000_000\n",
]


def written(folder: Path, text: str) -> Path:
    """Writes the settings of a bridge."""
    (folder / "catalogue.toml").touch()
    path = folder / "bridge.toml"
    path.write_text(text)
    return path


@pytest.mark.parametrize("text", UPLOADS)
def test_single_settings_are_those_of_the_whole_file(tmp_path: Path, text: str) -> None:
    path = written(tmp_path, SETTINGS + text)
    whole, file = read_settings(path), BridgeFile(path)
    assert whole.uploads is not None
    assert (file.name, file.url, file.state) == (whole.name, whole.url, whole.state)
    assert (file.catalogue, file.archives) == (whole.catalogue, whole.archives)
    assert (file.uploads, file.most_result_bytes) == (whole.uploads.folder, whole.uploads.most_result_bytes)
    assert printed(path, PRINTED) == [
        "https://sums.example/project/",
        "50000000",
        str(50_000_000 + MOST_HEAD),
    ]


def test_what_a_bridge_may_lack(tmp_path: Path) -> None:
    file = BridgeFile(written(tmp_path, ""))
    assert (file.name, file.state, file.uploads, file.archives) == (None, None, None, ())
    assert (file.most_result_bytes, file.most_upload) == (0, NO_UPLOADS)
    with pytest.raises(OperatorFault, match="bridge.toml: line 1: url is missing$"):
        printed(file.file.path, ["most_upload", "url"])


def test_the_default_of_a_result(tmp_path: Path) -> None:
    path = written(tmp_path, SETTINGS + '[uploads]\nfolder = "u"\nmost_bytes = 10\n')
    whole = read_settings(path).uploads
    assert whole is not None and whole.most_result_bytes == RESULT_BYTES
    assert printed(path, ["most_upload"]) == [str(RESULT_BYTES + MOST_HEAD)]


def test_other_members_are_not_looked_at(tmp_path: Path) -> None:
    path = written(tmp_path, 'url = "https://sums.example/"\nthreads = "many"\nothers = 1\n')
    assert printed(path, ["url"]) == ["https://sums.example/"]
    with pytest.raises(OperatorFault):
        read_settings(path)


@pytest.mark.parametrize(
    "text, fault",
    [
        ('[uploads]\nmost_result_bytes = "5"\n', "line 2: most_result_bytes is not a whole number"),
        ("[uploads]\nmost_result_bytes = 0\n", "line 2: most_result_bytes is not within 1 to 10"),
        ("uploads = 5\n", "line 1: uploads is not a table"),
        ("uploads\n", "is not TOML"),
    ],
)
def test_faults(tmp_path: Path, text: str, fault: str) -> None:
    path = written(tmp_path, text)
    with pytest.raises(OperatorFault, match=f"^{path}: {fault}"):
        printed(path, ["most_upload"])


def test_where_the_settings_are(tmp_path: Path) -> None:
    assert file_of(tmp_path) == tmp_path / "bridge" / "bridge.toml"
