"""The folder of uploads of a bridge (`bridge/README.md`, "Output files"): the tables of `uploads.db`, the
places of its files, and the output of a result that has files.

Results and uploads have the names by which clients know them (`file_names`).

`pending/` has the files of results that are not reported yet, and `store/` those of reported results, under
their SHA-256.
"""
import hashlib
import re
from collections.abc import Iterator, Mapping
from dataclasses import dataclass
from pathlib import Path

from .catalogue import FILE_NAME, OutputFile
from .sqlite_formats import SqliteFormat
from .texts import MOST_OUTPUT

DATABASE = "uploads.db"  # in the folder
PENDING, STORE = "pending", "store"
TABLES = """
CREATE TABLE listing (            -- a list of the output files of an application
  id INTEGER PRIMARY KEY, app TEXT NOT NULL, files TEXT NOT NULL, UNIQUE (app, files)
) STRICT;
CREATE TABLE job (                -- a result that went out
  result TEXT PRIMARY KEY,
  authenticator TEXT NOT NULL, host_cpid TEXT NOT NULL,  -- the host that has it
  listing INTEGER NOT NULL REFERENCES listing,  -- as the catalogue had it when the job went out
  deadline INTEGER NOT NULL,
  stored_at INTEGER,              -- when its files were stored, which a report of a success does
  exit_status INTEGER, output TEXT  -- what bsched gets of that report, by a digest program
) STRICT;
CREATE TABLE upload (             -- a file in pending/, whose result is not reported yet
  name TEXT PRIMARY KEY, nbytes INTEGER NOT NULL, md5 TEXT NOT NULL, sha256 TEXT NOT NULL,
  received_at INTEGER NOT NULL
) STRICT;
CREATE TABLE file (               -- a file of a reported result
  result TEXT NOT NULL, place INTEGER NOT NULL, open_name TEXT NOT NULL, nbytes INTEGER NOT NULL,
  sha256 TEXT NOT NULL, PRIMARY KEY (result, place)
) STRICT, WITHOUT ROWID;
CREATE INDEX file_by_content ON file (sha256);
CREATE TABLE content (            -- a file in store/
  sha256 TEXT PRIMARY KEY, nbytes INTEGER NOT NULL
) STRICT, WITHOUT ROWID;
CREATE TABLE used (nbytes INTEGER NOT NULL) STRICT;  -- by the files in pending/ and store/
INSERT INTO used VALUES (0);
CREATE TRIGGER upload_comes AFTER INSERT ON upload BEGIN UPDATE used SET nbytes = nbytes + NEW.nbytes; END;
CREATE TRIGGER upload_goes AFTER DELETE ON upload BEGIN UPDATE used SET nbytes = nbytes - OLD.nbytes; END;
CREATE TRIGGER content_comes AFTER INSERT ON content BEGIN UPDATE used SET nbytes = nbytes + NEW.nbytes; END;
CREATE TRIGGER content_goes AFTER DELETE ON content BEGIN UPDATE used SET nbytes = nbytes - OLD.nbytes; END;
"""
# whose the files in pending/ are, and which jobs ended as errors
OWNERS = """
ALTER TABLE job ADD COLUMN ended_at INTEGER;  -- when bsched had a report of it whose files are not stored
CREATE INDEX job_of_host ON job (authenticator, host_cpid, listing)
  WHERE stored_at IS NULL AND ended_at IS NULL;
ALTER TABLE upload ADD COLUMN result TEXT NOT NULL DEFAULT '';
-- the host that has the job; empty if the bridge does not know the job
ALTER TABLE upload ADD COLUMN authenticator TEXT NOT NULL DEFAULT '';
ALTER TABLE upload ADD COLUMN host_cpid TEXT NOT NULL DEFAULT '';
CREATE INDEX upload_of_host ON upload (authenticator, host_cpid, nbytes);
"""
OWNERS_OF_UPLOADS = """
UPDATE upload SET result = replace(substr(name, 1, length(rtrim(name, '0123456789')) - 1), '+', '');
UPDATE upload SET authenticator = job.authenticator, host_cpid = job.host_cpid
  FROM job WHERE job.result = upload.result;
"""
URLS = """
ALTER TABLE job ADD COLUMN has_url INTEGER NOT NULL DEFAULT 0;  -- 1: its client has URLs with tokens
CREATE INDEX job_without_url ON job (listing) WHERE has_url = 0 AND stored_at IS NULL AND ended_at IS NULL;
"""
NEW_FILE = TABLES + OWNERS + URLS
UPGRADES = {1: OWNERS + OWNERS_OF_UPLOADS, 2: URLS}  # the statements from each version to the next
UPLOADS = SqliteFormat(
    name="a bridge's file of uploads",
    application_id=0x62736375,  # "bscu"
    version=3,
    new_file=NEW_FILE,
    upgrades=UPGRADES,
)
# what those read who only look: the files of a result, all contents of the store, and who has a content
FILES_OF_RESULT = "SELECT open_name, nbytes, sha256 FROM file WHERE result = ?1 ORDER BY place"
CONTENTS_AFTER = "SELECT sha256, nbytes FROM content WHERE sha256 > ?1 ORDER BY sha256 LIMIT 1000"
RESULT_WITH = "SELECT result, open_name FROM file WHERE sha256 = ?1 ORDER BY result LIMIT 1"
# a line of an output with files
LINE = re.compile(
    rf"(?P<name>{FILE_NAME.pattern}) sha256:(?P<sha256>[0-9a-f]{{64}}) (?P<nbytes>[0-9]{{1,18}})"
)


@dataclass(frozen=True, slots=True)
class StoredOutput:
    """A file of a reported result, whose content is stored."""

    nbytes: int
    sha256: str


def stored_path(folder: Path, sha256: str) -> Path:
    """Returns the path of a content in the folder of uploads."""
    return folder / STORE / sha256


def compared_text(files: tuple[OutputFile, ...], stored: Mapping[str, StoredOutput]) -> str:
    """Returns the output that bsched compares: a line for each file, with its SHA-256 and its size. Equal
    files give equal texts. If the text is longer than an output may be, its own SHA-256 takes its place.
    """
    lines = []
    for file in files:
        if file.is_compared:
            one = stored.get(file.open_name)
            lines.append(
                f"{file.open_name} absent"
                if one is None
                else f"{file.open_name} sha256:{one.sha256} {one.nbytes}"
            )
    text = "\n".join(lines)
    if len(text.encode()) <= MOST_OUTPUT:
        return text
    return f"{len(lines)} files sha256:{hashlib.sha256(text.encode()).hexdigest()}"


def files_in(output: str) -> Iterator[tuple[str, StoredOutput]]:
    """Yields the files that an output of `compared_text` names. A volunteer can write such lines, too."""
    for line in output.split("\n"):
        if match := LINE.fullmatch(line):
            yield match["name"], StoredOutput(int(match["nbytes"]), match["sha256"])
