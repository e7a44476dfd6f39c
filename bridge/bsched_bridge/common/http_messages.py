"""Messages of HTTP: what a browser or a client sends, and what it gets. Werkzeug reads and writes them.

What a stranger sends is hostile. So a body is read only after its length was allowed, a query and a form are
read only within the limits, and no form has files.
"""
import logging
import re
import traceback
from collections.abc import Iterator, Mapping
from urllib.parse import parse_qsl, urlsplit
from wsgiref.types import StartResponse, WSGIEnvironment

from werkzeug.exceptions import (
    BadRequest,
    Forbidden,
    HTTPException,
    LengthRequired,
    MethodNotAllowed,
    RequestEntityTooLarge,
    UnsupportedMediaType,
)
from werkzeug.wrappers import Request, Response

from .limits import is_loopback

XML, HTML, TEXT = "text/xml; charset=utf-8", "text/html; charset=utf-8", "text/plain; charset=utf-8"
CSS = "text/css; charset=utf-8"
BYTES = "application/octet-stream"
PHRASES = {
    200: "OK",
    206: "Partial Content",
    303: "See Other",
    304: "Not Modified",
    400: "Bad Request",
    403: "Forbidden",
    404: "Not Found",
    405: "Method Not Allowed",
    411: "Length Required",
    413: "Content Too Large",
    415: "Unsupported Media Type",
    416: "Range Not Satisfiable",
    500: "Internal Server Error",
    503: "Service Unavailable",
}
LENGTH = re.compile("[0-9]{1,18}")
BLOCK = 65536  # bytes that are read or sent at once
FORM = "application/x-www-form-urlencoded"
MOST_FORM, MOST_FIELDS = 16_384, 32  # bytes of a form, fields of a form or a query
NO_STORE = {"Cache-Control": "no-store"}
# for what has a hash of its content in its URL
FOR_GOOD = {"Cache-Control": "public, max-age=31536000, immutable"}
# fields that a proxy adds to a message of somebody else
PROXY_FIELDS = ("Forwarded", "Via", "X-Forwarded-For", "X-Forwarded-Host", "X-Real-IP")
# fields that browsers add to a message, and BOINC's client does not
BROWSER_FIELDS = ("Origin", "Referer", "Sec-Fetch-Site")
LOCAL_HOST = r"(localhost|127\.0\.0\.1|\[::1\])(:[0-9]+)?"

log = logging.getLogger(__name__)


class Message(Request):
    """A message. Nothing of its body is read yet: see body_of, blocks_of and form_of."""

    max_content_length = MOST_FORM
    max_form_memory_size = MOST_FORM


def status_line(status: int) -> str:
    """Returns a status with its phrase."""
    return f"{status} {PHRASES[status]}"


def answer(kind: str, body: bytes, fields: Mapping[str, str] | None = None, status: int = 200) -> Response:
    """Returns an answer whose body has a media type."""
    return Response(body, status_line(status), fields, content_type=kind)


class XmlAnswer:
    """An answer in XML, without the steps of Werkzeug's response that such an answer does not need."""

    __slots__ = ("body",)

    def __init__(self, body: bytes) -> None:
        self.body = body

    def __call__(self, _environ: WSGIEnvironment, start_response: StartResponse) -> list[bytes]:
        """Sends it (PEP 3333)."""
        start_response("200 OK", [("Content-Type", XML), ("Content-Length", str(len(self.body)))])
        return [self.body]


def plain_answer(fault: HTTPException) -> Response:
    """Returns the answer to a message that is refused: a line that says so."""
    status = fault.code if fault.code in PHRASES else 500
    fields = {name: value for name, value in fault.get_headers() if name.lower() != "content-type"}
    if isinstance(fault, MethodNotAllowed):
        fields["Allow"] = ", ".join(sorted(fault.valid_methods or ()))
    return answer(TEXT, f"{PHRASES[status]}\n".encode(), fields, status)


def log_fault(error: Exception) -> None:
    """Logs where a message failed, and nothing that the message said: it may be a password."""
    where = "".join(traceback.format_tb(error.__traceback__))
    log.error("a message could not be answered: %s\n%s", type(error).__name__, where)


def refuse_browsers(message: Request) -> None:
    """Raises Forbidden if a web page may have made its visitor send the message. Such a page can't leave out
    all of these fields.
    """
    if any(name in message.headers for name in BROWSER_FIELDS):
        raise Forbidden


def refuse_other_sites(message: Request, url: str) -> None:
    """Raises Forbidden if a page of another site made its visitor send the message. A browser says so by
    Sec-Fetch-Site. One that leaves it out, as without TLS, sends the origin of the page with each form. A
    page that hides its own origin, such as a sandboxed frame, has the origin `null`.
    """
    site, origin = message.headers.get("Sec-Fetch-Site"), message.headers.get("Origin")
    if site is not None:
        is_own = site in ("same-origin", "none")
    else:
        is_own = origin is None or origin in own_origins(message, url)
    if not is_own:
        raise Forbidden


def own_origins(message: Request, url: str) -> list[str]:
    """Returns the origins of the project's pages: that of the master URL, and that by which a browser on the
    operator's machine reaches the bridge through a tunnel.
    """
    parts = urlsplit(url)
    origins = [f"{parts.scheme}://{parts.netloc}"]
    if re.fullmatch(LOCAL_HOST, message.host):
        origins.append(f"http://{message.host}")
    return origins


def is_of_this_machine(message: Request, address_field: str | None) -> bool:
    """Returns whether a program on this machine sent a message, and did not pass it on as a proxy. A proxy
    leaves the fields out only where the operator lets it pass on the operator's own messages.
    """
    fields = PROXY_FIELDS if address_field is None else (*PROXY_FIELDS, address_field)
    return is_loopback(message.remote_addr or "") and not any(name in message.headers for name in fields)


def length_of(environ: WSGIEnvironment, most: int | None = None) -> int:
    """Returns the length of the body of a POST, which may be limited."""
    length = environ.get("CONTENT_LENGTH") or ""
    if not LENGTH.fullmatch(length):
        raise LengthRequired
    if most is not None and int(length) > most:
        raise RequestEntityTooLarge
    return int(length)


def body_of(message: Request, most: int) -> bytes:
    """Returns the body of a POST."""
    return b"".join(blocks_of(message.environ, length_of(message.environ, most)))


def blocks_of(environ: WSGIEnvironment, length: int) -> Iterator[bytes]:
    """Yields the body of a POST in blocks, so that a long one is never in memory as a whole."""
    while length > 0:
        block: bytes = environ["wsgi.input"].read(min(BLOCK, length))
        if not block:
            raise BadRequest
        length -= len(block)
        yield block


def fields_of(text: bytes) -> dict[str, str]:
    """Returns the fields of a query or a form. If a field comes twice, the last one counts. Bytes that are
    not UTF-8 become U+FFFD. Raises BadRequest if there are too many fields, which are counted before they
    are read.
    """
    if text.count(b"&") >= MOST_FIELDS:
        raise BadRequest
    return dict(parse_qsl(text.decode(errors="replace"), keep_blank_values=True, errors="replace"))


def query_of(message: Request) -> dict[str, str]:
    """Returns the fields of the query."""
    return fields_of(message.query_string)


def form_of(message: Request) -> dict[str, str]:
    """Returns the fields of a form that was posted, in the one form that has no files."""
    if message.environ.get("CONTENT_TYPE", "").partition(";")[0].strip().lower() != FORM:
        raise UnsupportedMediaType
    return fields_of(body_of(message, MOST_FORM))
