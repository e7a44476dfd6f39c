"""Sends the files of the catalogue, or a part of a file. Werkzeug compares what the client has, and finds the
part.

By the lines of `bsched-project nginx` nginx keeps a copy of each file and sends that. From time to time it
asks whether the file has changed since a time.
"""
import os
from collections.abc import Callable
from contextlib import ExitStack
from typing import Any, BinaryIO, cast
from wsgiref.types import WSGIEnvironment

from werkzeug.exceptions import NotFound, ServiceUnavailable
from werkzeug.http import http_date
from werkzeug.wrappers import Request, Response
from werkzeug.wsgi import FileWrapper, wrap_file

from ..common.http_messages import BLOCK, BYTES, status_line
from ..common.limits import NoPlace, Places
from .contents import Catalogue, MissingFile

# gunicorn keeps a thread for each file that it sends, until the client has read it; waitress does not
ONE_THREAD_FOR_A_FILE = "gunicorn"
MOST_RANGE = 100  # characters of a field that asks for a part


class OpenDownload:
    """A file that calls a function when the server closes it."""

    def __init__(self, file: BinaryIO, on_close: Callable[[], None]) -> None:
        self._file, self._on_close = file, on_close

    def __getattr__(self, name: str) -> Any:
        """Returns what the file has."""
        return getattr(self._file, name)

    def close(self) -> None:
        """Closes the file."""
        self._file.close()
        self._on_close()


def conditions_of(message: Request, changed: str) -> WSGIEnvironment:
    """Returns a message with the conditions that the bridge takes. A file that is older than the client's is
    another one, too, so only an equal time counts, and Werkzeug reads no other one. Of several parts, or of
    other ones than bytes, the whole file is sent.
    """
    environ = dict(message.environ)
    is_same = environ.pop("HTTP_IF_RANGE", changed) == changed
    asked = message.range if len(environ.get("HTTP_RANGE", "")) <= MOST_RANGE else None
    if not is_same or asked is None or asked.units != "bytes" or len(asked.ranges) != 1:
        environ.pop("HTTP_RANGE", None)
    if environ.get("HTTP_IF_MODIFIED_SINCE") != changed:
        environ.pop("HTTP_IF_MODIFIED_SINCE", None)
    return environ


class Downloads:
    """Sends files."""

    def __init__(self, catalogue: Callable[[], Catalogue], places: Places, retry_delay: int) -> None:
        self.catalogue, self.places, self.retry_delay = catalogue, places, retry_delay

    def send(self, message: Request, name: str) -> Response:
        """Sends a file. Clients ask later again if too many read slowly."""
        if not message.environ.get("SERVER_SOFTWARE", "").startswith(ONE_THREAD_FOR_A_FILE):
            return self._send(message, name, lambda: None)
        place = ExitStack()
        try:
            place.enter_context(self.places.taken())
            return self._send(message, name, place.close)
        except NoPlace:
            raise ServiceUnavailable(retry_after=self.retry_delay) from None
        except BaseException:
            place.close()
            raise

    def _send(self, message: Request, name: str, on_close: Callable[[], None]) -> Response:
        """Sends a file, and calls a function when the server has closed it, or if no file is sent."""
        try:
            file = self.catalogue().folder.path_of(name).open("rb")
        except (MissingFile, OSError):
            raise NotFound from None
        try:
            return file_answer(message, cast(BinaryIO, OpenDownload(file, on_close)))
        except BaseException:
            file.close()
            raise


def file_answer(message: Request, file: BinaryIO) -> Response:
    """Returns the answer with a file or with a part of it, or that it has not changed. Raises
    RequestedRangeNotSatisfiable if the file has no such part.
    """
    status = os.stat(file.fileno())
    changed = http_date(status.st_mtime)
    environ = conditions_of(message, changed)
    fields = {"Last-Modified": changed, "Accept-Ranges": "bytes", "Content-Length": str(status.st_size)}
    # the server sends a whole file by itself; Werkzeug goes to the first byte of a part
    whole = FileWrapper(file, BLOCK) if "HTTP_RANGE" in environ else wrap_file(environ, file, BLOCK)
    response = Response(whole, 200, fields, content_type=BYTES, direct_passthrough=True)
    response.make_conditional(environ, accept_ranges=True, complete_length=status.st_size)
    del response.headers["Date"]  # the server has one
    response.status = status_line(response.status_code)
    if response.status_code == 304 or message.method == "HEAD":
        response.close()
        response.response = []
    return response
