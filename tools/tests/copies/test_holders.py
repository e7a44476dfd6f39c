"""Which processes have the tables."""
import os
import subprocess
import sys
import time
from pathlib import Path

import pytest
from copies_tried import goes_on
from small_project import END, PACKAGES, Twin

from bsched_files.faults import Fault
from bsched_tools.copies import copying, holders, taking
from bsched_tools.copies.faults import Retry


def identity_of(path: Path) -> holders.Identity:
    """Returns the identity of a file that exists."""
    identity = holders.identity_of(path)
    assert identity is not None
    return identity


LIKE_THE_PROGRAM = """
import sys, time
from bsched_tools.copies import taking
files = [open(path, "rb+") for path in sys.argv[1:]]
assert all(taking.lock(file.fileno()) for file in files)
print("locked", flush=True)
time.sleep(60)
"""


def test_locks_of_open_files(project: Path, copies: Path) -> None:
    """bsched locks the file and its log with locks of the kind that names no process."""
    log = project.with_name("project.db-wal")
    log.write_bytes(b"")
    command = [sys.executable, "-c", LIKE_THE_PROGRAM, str(project), str(log)]
    with subprocess.Popen(command, env={"PYTHONPATH": PACKAGES}, stdout=subprocess.PIPE) as holder:
        try:
            assert holder.stdout is not None and holder.stdout.readline() == b"locked\n"
            found = holders.holder_among(holders.all_open_files(identity_of(project)))
            assert found is not None and found.pid == holder.pid
            assert copying.copy_tables(project, copies).still_seconds is not None
        finally:
            holder.kill()


def test_a_reader_is_named(project: Path, copies: Path, monkeypatch: pytest.MonkeyPatch) -> None:
    monkeypatch.setattr(taking, "SEEK_SECONDS", 0)
    reads = "c.execute('SELECT * FROM unit')"
    script = f"import sqlite3; c = sqlite3.connect({str(project)!r}); {reads}; input()"
    with subprocess.Popen([sys.executable, "-c", script], stdin=subprocess.PIPE) as reader:
        ends = time.monotonic() + END
        while not any(one.lock for one in holders.all_open_files(identity_of(project))):
            assert time.monotonic() < ends
        with pytest.raises(Fault, match=rf"process {reader.pid} \(\w+\S*\) reads it: end that first"):
            copying.copy_tables(project, copies)
        assert reader.stdin is not None
        reader.stdin.close()


def test_the_process_is_found_by_the_file_and_not_by_its_name(
    project: Path,
    twin: Twin,
    copies: Path,
    tmp_path: Path,
) -> None:
    os.rename(project, tmp_path / "other.db")
    os.rename(f"{project}-wal", tmp_path / "other.db-wal")
    os.symlink("other.db", tmp_path / "link.db")
    copied = copying.copy_tables(tmp_path / "link.db", copies)
    assert copied.still_seconds is not None
    assert copied.path.name.startswith("other-")


def test_another_log_in_the_place_of_the_one_that_is_written(
    project: Path,
    twin: Twin,
    copies: Path,
    monkeypatch: pytest.MonkeyPatch,
) -> None:
    monkeypatch.setattr(taking, "SEEK_SECONDS", 0)
    os.remove(f"{project}-wal")
    (project.parent / "project.db-wal").write_bytes(b"")
    with pytest.raises(Fault, match="project.db-wal is not the log that process"):
        copying.copy_tables(project, copies)
    assert goes_on(twin)


def test_the_holder_is_looked_at_again_while_it_stands_still(
    project: Path,
    twin: Twin,
    copies: Path,
    monkeypatch: pytest.MonkeyPatch,
) -> None:
    source = taking.Source(project, identity_of(project))
    (holder,) = [
        one for one in holders.open_files_of(twin.process.pid, source.identity) if one.lock == "WRITE"
    ]
    taking.check_holder(source, holder, 3)
    with pytest.raises(Retry, match="was made meanwhile"):
        taking.check_holder(source, holder, None)
    with monkeypatch.context() as patched:
        patched.setattr(holders, "lock_of", lambda *_args: "READ")
        with pytest.raises(Retry, match="gave up the file"):
            taking.check_holder(source, holder, 3)
    os.rename(project, project.with_name("moved.db"))
    project.write_bytes(b"another")
    with pytest.raises(Retry, match="gave up the file"):
        taking.check_holder(taking.Source(project, identity_of(project)), holder, 3)
