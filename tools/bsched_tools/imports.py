"""Imports of files: by HTTP while the scheduler serves, and else by the program.

A file becomes batches of at most MOST_BATCH bytes, since the scheduler answers nobody else while it imports.
The name of a batch is made from its bytes. So the same file can be imported again after any stop: what was
imported gets its answer again and adds nothing.
"""
import hashlib
import http.client
import json
import os
import re
import tempfile
import time
from collections.abc import Iterator
from dataclasses import dataclass
from typing import Any

from bsched_files.faults import Fault
from bsched_files.programs import run
from bsched_files.texts import csv_text

from .import_files import MOST_BYTES, ImportFile, Row
from .projects import PROGRAM, Project

MOST_BATCH = 262_144  # bytes; a megabyte stops serving for more than a second
ANSWER_SECONDS = 120.0
ATTEMPTS, PAUSE_SECONDS = 5, 2.0
NO_SCHEDULER = "unavailable"  # the error of an answer, and what no answer counts as
ADVICE = {
    "not_operator": "the scheduler has another operator_key: is it that of another project?",
    "table_full": 'the table is full: see "Limits" in docs/WHEN_WRONG.md',
    "too_large": "the batch is too large",
    "unavailable": "the scheduler is out of memory, or its disk is full or fails: run it again",
}


@dataclass(frozen=True, slots=True)
class Batch:
    """A part of a file, with the name under which it is imported."""

    name: str
    text: bytes
    rows: list[Row]


def text_of(header: list[str], rows: list[Row]) -> bytes:
    """Returns records as comma-separated values."""
    return csv_text([header, *(row.fields for row in rows)]).encode()


def batches_of(file: ImportFile, name: str | None, most_rows: int | None = None) -> Iterator[Batch]:
    """Yields the batches of a file, each with at most this many rows. A given name is that of the one batch,
    or the front of their names."""
    header = len(text_of(file.header, []))
    parts: list[list[Row]] = [[]]
    size = header
    for row in file.rows:
        length = len(text_of(row.fields, [])) + 2
        if parts[-1] and (size + length > MOST_BATCH or len(parts[-1]) == most_rows):
            parts.append([])
            size = header
        parts[-1].append(row)
        size += length
    stem = re.sub("[^A-Za-z0-9_.-]", "_", file.path.stem)[:40]
    for number, rows in enumerate(parts, 1):
        text = text_of(file.header, rows)
        if len(text) > MOST_BYTES:
            raise Fault(f"{file.path}: line {rows[0].line}: a row has more than {MOST_BYTES} bytes")
        own = f"{stem}-{hashlib.sha256(text).hexdigest()[:16]}"
        if name is not None:
            own = name if len(parts) == 1 and most_rows is None else f"{name}-{number}"
        yield Batch(own, text, rows)


class Sender:
    """Sends batches to the scheduler of a project, or has the program import them if nobody serves."""

    def __init__(self, project: Project) -> None:
        self.project = project

    def answer(self, kind: str, batch: Batch) -> dict[str, Any]:
        """Returns the answer to a batch. If the scheduler is unavailable, the batch is sent again, some
        times."""
        answer: dict[str, Any] = {"error": NO_SCHEDULER}
        for attempt in range(ATTEMPTS):
            if attempt:
                time.sleep(PAUSE_SECONDS)
            try:
                answer = self.by_http(kind, batch)
            except ConnectionRefusedError:
                answer = self.by_program(kind, batch)
            except (OSError, http.client.HTTPException):
                continue
            if answer.get("error") != NO_SCHEDULER:
                break
        return answer

    def by_http(self, kind: str, batch: Batch) -> dict[str, Any]:
        """Returns the answer of the scheduler."""
        port = self.project.port()
        connection = http.client.HTTPConnection("127.0.0.1", port, timeout=ANSWER_SECONDS)
        try:
            fields = {"x-operator-key": self.project.operator_key, "content-type": "text/csv"}
            connection.request("POST", f"/import/{kind}/{batch.name}", batch.text, fields)
            return read_answer(connection.getresponse().read().decode(errors="replace"), f"port {port}")
        finally:
            connection.close()

    def by_program(self, kind: str, batch: Batch) -> dict[str, Any]:
        """Returns the answer of the program, which opens the tables for it."""
        with tempfile.NamedTemporaryFile(prefix="bsched-import-") as file:
            file.write(batch.text)
            file.flush()
            owner = self.project.as_owner()
            if owner:  # nobody else may read it: a file of accounts has keys
                os.fchown(file.fileno(), owner["user"], owner["group"])
            args = ["import", "--tables", str(self.project.tables), "--kind", kind, "--batch", batch.name]
            completed = run([str(PROGRAM), *args, "--file", file.name], 10 * ANSWER_SECONDS, rights=owner)
        if not completed.stdout:
            tables = self.project.tables
            raise Fault(
                f"{tables}: no scheduler answers on port {self.project.port()}, and the program says "
                f"`{completed.stderr.strip()}`: run `bsched-tools doctor --project {self.project.name}`"
            )
        return read_answer(completed.stdout, str(PROGRAM))


def read_answer(text: str, who: str) -> dict[str, Any]:
    """Returns an answer of bsched."""
    try:
        answer = json.loads(text)
        if isinstance(answer, dict) and ("error" in answer or "rows" in answer):
            return answer
    except ValueError:
        pass
    raise Fault(f"{who}: this is no answer of bsched: {text[:100]!r}")


def refusal_text(answer: dict[str, Any], file: ImportFile, batch: Batch) -> str:
    """Returns what a refusal means, with the line of the file."""
    error, number = answer["error"], answer.get("row")
    row = batch.rows[number - 1] if isinstance(number, int) and 1 <= number <= len(batch.rows) else None
    where = "" if row is None else f"line {row.line}: "
    if row is not None and error == "duplicate_name":
        return f"{where}{' '.join(row.fields[:file.kind.names])} exists already: choose another name"
    if row is not None and error == "unknown_reference" and file.kind.app is not None:
        return f"{where}there is no application {row.fields[file.kind.app]}: import it first"
    if error == "batch_reused":
        return f"another file was imported as the batch {batch.name}: leave out --batch"
    return f"{where}{ADVICE.get(error, f'bsched refuses it as {error}')}"


def import_file(project: Project, file: ImportFile, name: str | None = None) -> Iterator[str]:
    """Imports a file, and yields a line for each batch. A refusal is a fault; the batches before it stay."""
    if not file.rows:
        yield f"{file.path}: it has no rows, so nothing is imported"
        return
    sender, batches = Sender(project), list(batches_of(file, name))
    done = 0
    for batch in batches:
        answer = sender.answer(file.kind.name, batch)
        if "error" in answer:
            kept = f" ({done} rows before it are imported)" if done else ""
            raise Fault(f"{file.path}: {refusal_text(answer, file, batch)}{kept}")
        done += int(answer["rows"])
        yield f"{file.path}: {answer['rows']} rows of {file.kind.name}, as the batch {batch.name}"
