"""Tests what `health` says of the catalogue, of reports that wait, and of the room for uploads."""
import json
import threading
import time
from collections.abc import Iterator
from contextlib import contextmanager
from http.server import BaseHTTPRequestHandler, ThreadingHTTPServer
from pathlib import Path
from typing import Any
from wsgiref.simple_server import WSGIRequestHandler, make_server

import pytest
from work_project import WorkProject

from bsched_bridge.application import Application
from bsched_bridge.common.state_file import StateFile
from bsched_bridge.scheduler.messages import Scheduler
from bsched_bridge.uploads.current_catalogue import CatalogueReader
from bsched_bridge.uploads.store import open_store
from bsched_files.findings import Finding, Level
from bsched_files.project_settings import read_settings
from bsched_tools import bridge_state
from bsched_tools.projects import Project

GOOD: dict[str, Any] = {"edit": None, "digests": {}}
GB = 10**9
ROOM = {"used": 0, "most_bytes": 10 * GB, "disk_free": 50 * GB, "free_bytes": 5 * GB, "coming": GB}
RESTART = "`systemctl restart bsched-bridge@sums`"


class Quiet(WSGIRequestHandler):
    """Logs nothing."""

    def log_message(self, *_args: object) -> None:
        """Prints nothing."""


@pytest.fixture
def made(tmp_path: Path) -> WorkProject:
    """Makes a project with a bridge that nobody serves."""
    project = WorkProject(tmp_path)
    (project.folder / "units.toml").write_text("")
    return project


def asked(made: WorkProject) -> list[Finding]:
    """Returns what the check finds."""
    project = Project(made.folder)
    return list(bridge_state.catalogue(project, project.units()))


@contextmanager
def answering(made: WorkProject, status: int, body: bytes) -> Iterator[list[str]]:
    """Has the port of the bridge give one answer to all. Yields the paths and the keys that come."""
    came: list[str] = []

    class Handler(BaseHTTPRequestHandler):
        """Answers."""

        def do_GET(self) -> None:
            """Answers."""
            came.append(f"{self.path} {self.headers['x-operator-key']}")
            self.send_response(status)
            self.send_header("content-length", str(len(body)))
            self.end_headers()
            self.wfile.write(body)

        def log_message(self, *_args: object) -> None:
            """Prints nothing."""

    port = Project(made.folder).port("BRIDGE_PORT")
    server = ThreadingHTTPServer(("127.0.0.1", port), Handler)
    thread = threading.Thread(target=server.serve_forever, daemon=True)
    thread.start()
    try:
        yield came
    finally:
        server.shutdown()
        thread.join(60)
        server.server_close()


def found_in(made: WorkProject, **members: Any) -> list[Finding]:
    """Returns what is found in a state."""
    state = {"format": 1, "catalogue": GOOD, "put_off": None, "uploads": None, **members}
    with answering(made, 200, json.dumps(state).encode()) as came:
        found = asked(made)
    assert came == ["/p/operator/state change-this-key"]
    return found


def test_all_is_good(made: WorkProject) -> None:
    assert [(one.check, one.level) for one in found_in(made)] == [("catalogue", Level.GOOD)]
    found = found_in(made, uploads=ROOM)
    assert [(one.check, one.level) for one in found] == [("catalogue", Level.GOOD), ("uploads", Level.GOOD)]
    assert found[1].text == "0 bytes of 10.0 GB (most_bytes) are used"


def test_an_edit_that_does_not_count(made: WorkProject) -> None:
    (one,) = found_in(made, catalogue={"edit": "catalogue.toml: line 7: x", "digests": {}})
    assert (one.check, one.level) == ("catalogue", Level.CRITICAL)
    assert "it stays as it was: catalogue.toml: line 7: x: " in one.text
    assert "`journalctl -u bsched-bridge@sums`" in one.text


def test_digest_programs_that_fail(made: WorkProject) -> None:
    digests = {"tree": "digests/newick: bubblewrap can't run here", "fam": "digests/fam: it ends with 1"}
    found = found_in(made, catalogue={"edit": None, "digests": digests})
    assert {(one.check, one.level) for one in found} == {("catalogue", Level.CRITICAL)}
    assert ["of fam fails" in found[0].text, "of tree fails" in found[1].text] == [True, True]
    assert f"its reports wait: {digests['tree']}: correct it, then {RESTART}" in found[1].text


@pytest.mark.parametrize("age, is_found", [(0, True), (3000, True), (4000, False)])
def test_reports_that_were_put_off(made: WorkProject, age: int, is_found: bool) -> None:
    put_off = {"moment": int(time.time()) - age, "text": "run_1_0: no space"}
    found = [one for one in found_in(made, put_off=put_off) if one.check == "reports"]
    assert len(found) == is_found
    for one in found:
        assert one.level is Level.WARNING and f"{age // 60} minutes ago: run_1_0: no space" in one.text


@pytest.mark.parametrize(
    "changed, level, text",
    [
        ({"used": 10 * GB}, Level.CRITICAL, "10.0 GB of 10.0 GB (most_bytes) are used, so clients wait"),
        ({"disk_free": 5 * GB}, Level.CRITICAL, "has 5.0 GB free, and uploads leave 5.0 GB (free_bytes)"),
        ({"disk_free": 5 * GB + 1}, Level.WARNING, "the jobs that are out may bring 1.0 GB"),
        ({"disk_free": 6 * GB}, Level.GOOD, "are used"),
        ({"used": 9 * GB}, Level.WARNING, "raise most_bytes in bridge.toml"),
        ({"used": 8 * GB, "coming": 3 * GB}, Level.WARNING, "may bring 3.0 GB: raise most_bytes"),
        ({"used": 8 * GB}, Level.GOOD, "8.0 GB of 10.0 GB"),
    ],
)
def test_the_room_for_uploads(made: WorkProject, changed: dict[str, int], level: Level, text: str) -> None:
    (one,) = [one for one in found_in(made, uploads={**ROOM, **changed}) if one.check == "uploads"]
    assert one.level is level and text in one.text
    assert (RESTART in one.text) == (level is not Level.GOOD)


# ---- Answers that say nothing


def test_no_answer(made: WorkProject) -> None:
    """That is a finding of the check of the bridge."""
    assert asked(made) == []


@pytest.mark.parametrize(
    "status, level, text",
    [
        (403, Level.WARNING, "the bridge refuses operator_key of settings.toml"),
        (404, Level.UNKNOWN, "does not say (status 404)"),
        (503, Level.UNKNOWN, "does not say (status 503)"),
    ],
)
def test_refusals(made: WorkProject, status: int, level: Level, text: str) -> None:
    with answering(made, status, b"x"):
        (one,) = asked(made)
    assert (one.check, one.level) == ("catalogue", level) and text in one.text and RESTART in one.text


@pytest.mark.parametrize("body", [b"", b"x", b"[]", b"{}", b'{"format":1,"catalogue":[]}', b"[" * 100_000])
def test_what_is_no_state(made: WorkProject, body: bytes) -> None:
    with answering(made, 200, body):
        (one,) = asked(made)
    assert (one.check, one.level) == ("catalogue", Level.UNKNOWN)


def test_a_bridge_without_a_key(made: WorkProject) -> None:
    """It has no such page, so nobody is asked."""
    settings = made.bridge / "bridge.toml"
    settings.write_text(settings.read_text().replace("operator_key", "# operator_key"))
    with answering(made, 404, b"") as came:
        assert asked(made) == [] and came == []


# ---- A bridge that serves


@pytest.fixture
def bridge(made: WorkProject) -> Iterator[Application]:
    """Serves the project's bridge."""
    made.serve()
    assert made.app("--output", "out:1k")[0] == 0
    settings = read_settings(made.bridge / "bridge.toml")
    catalogues, file = CatalogueReader(settings), StateFile(settings.state)
    store = open_store(settings, catalogues.current())
    assert store is not None
    scheduler = Scheduler(settings.scheduler, settings.answer_seconds, settings.operator_key)
    application = Application(
        settings, catalogues.current, file, scheduler, store=store, faults=catalogues.faults
    )
    port = Project(made.folder).port("BRIDGE_PORT")
    server = make_server("127.0.0.1", port, application, handler_class=Quiet)
    thread = threading.Thread(target=server.serve_forever, daemon=True)
    thread.start()
    yield application
    server.shutdown()
    thread.join(60)
    server.server_close()
    file.close()
    store.close()
    made.end()


def test_what_the_bridge_says(made: WorkProject, bridge: Application) -> None:
    assert [(one.check, one.level) for one in asked(made)] == [
        ("catalogue", Level.GOOD),
        ("uploads", Level.GOOD),
    ]
    with made.catalogue.open("a") as file:
        file.write("[[app]]\nname = 3\n")
    bridge.current()
    one = asked(made)[0]
    assert one.level is Level.CRITICAL and f"{made.catalogue}: line " in one.text
    bridge.faults.digests["count"] = "digests/count: it ends with status 1"
    bridge.measurements.put_offs._fault = time.time(), "run_1_0: it ends with status 1"
    assert [one.check for one in asked(made)] == ["catalogue", "catalogue", "reports", "uploads"]
