"""The messages by which a client uploads a file (BOINC's documentation, "File upload protocol").

Above 8,192 bytes the client first asks how much of the file the project has. The answer is always 0: nothing
incomplete is kept, so an upload that broke off is sent from its beginning. Then the client sends a head,
which looks like XML and ends with `<data>`, and after it the bytes of the file, with nothing after them.

The URL has the name of the file and a token, so a message is refused before its body is read. A web server
asks the bridge about the URL, and takes the body only then. A client that got its job from an older bridge
has a URL without them.

The client gives up for good after status -1, and the volunteer's work is lost. So -1 is the answer to a
forged or faulty message, and to a file whose job has ended (the module `owners`). After status 1 the client
tries again later, for up to 90 days.
"""
import logging
import re
import sqlite3
from collections.abc import Iterator
from contextlib import suppress
from dataclasses import dataclass
from typing import BinaryIO

from werkzeug.exceptions import Forbidden
from werkzeug.wrappers import Request, Response

from bsched_files.project_settings import MOST_HEAD, most_upload

from ..common.http_messages import TEXT, answer, length_of
from ..common.languages import Language, language_of
from ..common.limits import NoPlace, Places
from ..people.measurements import UploadCounts, UploadEnd
from .owners import Ended, Owner, UploadOwners
from .room import NotNow
from .store import AnnouncedFile, UploadStore
from .tokens import UploadTokens

PATH = "file_upload_handler"  # of the URL; the client takes a URL without this word for that of a download
CHECK_PATH = "upload_check"  # where the web server asks about a URL
BLOCK = 256 * 1024
# how long an upload waits for a place: after three refusals a client pauses for a quarter of an hour
PLACE_SECONDS = 5.0
DONE, AGAIN, NEVER = 0, 1, -1
# fields of HTTP between the web server and the bridge: the URL of an upload, and the account that it is of
URL_FIELD, ACCOUNT_FIELD = "X-Upload-URL", "X-Upload-Account"
UPLOAD_URL = re.compile(rf"/{PATH}(?:/([^/?]+)/([^/?]+))?\Z")
DATA = b"<data>\n"
NUMBER = re.compile("[0-9]{1,18}")
MD5 = re.compile("[0-9a-f]{32}")
MEMBERS = ("name", "xml_signature", "max_nbytes", "nbytes", "md5_cksum", "offset")
PATTERNS = {name: re.compile(rf"<{name}>([^<]*)</{name}>") for name in (*MEMBERS, "get_file_size")}

log = logging.getLogger(__name__)


class BadMessage(Exception):
    """Raised for a message that no client of this project sends. The text says what is wrong."""


@dataclass(frozen=True, slots=True)
class Head:
    """The head of an upload."""

    file: AnnouncedFile
    max_nbytes: int
    token: str
    offset: int
    length: int  # of the head itself, in bytes


def member_of(text: str, name: str) -> str:
    """Returns the text of the one element with a name, without blanks around it."""
    found = PATTERNS[name].findall(text)
    if len(found) != 1:
        raise BadMessage(f"{len(found)} elements {name}")
    return str(found[0]).strip()


def number_of(text: str, name: str) -> int:
    """Returns the whole number in the one element with a name."""
    digits = member_of(text, name)
    if not NUMBER.fullmatch(digits):
        raise BadMessage(f"{name} is not a number")
    return int(digits)


def read_head(begin: bytes) -> Head:
    """Reads the head from the first bytes of a message."""
    length = begin.find(DATA)
    if not 0 <= length <= MOST_HEAD - len(DATA):
        raise BadMessage(f"no <data> in the first {MOST_HEAD} bytes")
    text = begin[:length].decode("ascii", errors="replace")
    md5 = member_of(text, "md5_cksum")
    if not MD5.fullmatch(md5):
        raise BadMessage("md5_cksum is not an MD5")
    file = AnnouncedFile(member_of(text, "name"), number_of(text, "nbytes"), md5)
    max_nbytes, offset = number_of(text, "max_nbytes"), number_of(text, "offset")
    return Head(file, max_nbytes, member_of(text, "xml_signature"), offset, length + len(DATA))


def is_question(begin: bytes) -> bool:
    """Returns whether a message asks how much of a file the project has. The bytes of an uploaded file may
    look like the question, so a message that has `<data>` is none.
    """
    text = begin.decode("ascii", errors="replace")
    return DATA not in begin and PATTERNS["get_file_size"].search(text) is not None


def answer_of(status: int, message: str, file_size: int | None = None) -> Response:
    """Returns the answer with a status. The client writes what is said to its log, for the volunteer."""
    size = "" if file_size is None else f"<file_size>{file_size}</file_size>\n"
    message = f"<message>{message}</message>\n" if message else ""
    body = f"<data_server_reply>\n<status>{status}</status>\n{size}{message}</data_server_reply>\n"
    return answer(TEXT, body.encode())


class Body:
    """The body of a message, of which a part is read."""

    def __init__(self, stream: BinaryIO, length: int) -> None:
        self.stream, self.length, self.left = stream, length, length

    def read(self, most: int) -> bytes:
        """Reads at most so many of the bytes that are left; none if the client broke off."""
        block = self.stream.read(min(self.left, most))
        self.left -= len(block)
        return block

    def read_on(self, most: int) -> None:
        """Reads what is left, but no more than so many bytes."""
        most = min(self.left, most)
        with suppress(OSError):
            while most > 0 and (block := self.read(min(most, BLOCK))):
                most -= len(block)


def blocks_of(begin: bytes, body: Body) -> Iterator[bytes]:
    """Yields the bytes of a file: those that were read with the head, and then the rest, in blocks. If the
    client breaks off, they are fewer.
    """
    yield begin
    while block := body.read(BLOCK):
        yield block


class UploadMessages:
    """Answers the messages of uploads. Only so many receive a file, and some more wait for a place."""

    def __init__(
        self,
        store: UploadStore,
        owners: UploadOwners,
        places: Places,
        waiting: Places,
        counts: UploadCounts | None = None,
    ) -> None:
        self.store, self.owners, self.places, self.waiting = store, owners, places, waiting
        self.tokens = UploadTokens(store.secret)
        self.counts = counts or UploadCounts()

    def checked(self, message: Request) -> Response:
        """Answers the web server, which asks about the URL of an upload before it reads the body. With status
        403 it answers by itself that the file is refused for good.
        """
        found = UPLOAD_URL.search(message.headers.get(URL_FIELD, ""))
        try:
            if found is None:
                raise BadMessage("its URL is not that of an upload")
            owner = self._owner(found[1], found[2] or "")
        except (BadMessage, Ended) as fault:
            self.counts.record(UploadEnd.REFUSED)
            # anybody can send a URL that is none, so the log has only those of jobs
            level = logging.INFO if isinstance(fault, Ended) else logging.DEBUG
            log.log(level, "an upload is refused for good before it is read: %s", fault)
            raise Forbidden from None
        account = "" if owner is None else self.tokens.account_digits(owner.key.authenticator)
        return answer(TEXT, b"", {ACCOUNT_FIELD: account})

    def _owner(self, name: str | None, token: str) -> Owner | None:
        """Returns the owner of the file that a URL names, or None for the URL of an older bridge. Raises
        BadMessage and Ended.
        """
        if name is None:
            if self.owners.takes_plain_urls():
                return None
            raise BadMessage("its URL has no token")
        if not self.tokens.is_url_token(token, name):
            raise BadMessage("the token in its URL is not that of the file")
        return self.owners.of(name)

    def answer(self, message: Request, name: str | None = None, token: str = "") -> Response:
        """Answers a message, whose URL has the name of a file and a token. It never has a status of HTTP from
        400 on for what a client sends: the client would try again, for 90 days.

        What is left of a body is read before the answer: a proxy, or the client, may not read the answer
        while it still sends.
        """
        body = Body(message.environ["wsgi.input"], length_of(message.environ))
        answered = self._answered(body, name, token, language_of(message))
        body.read_on(most_upload(self.store.settings.most_result_bytes))
        return answered

    def _answered(self, body: Body, name: str | None, token: str, language: Language) -> Response:
        """Returns the answer to a message, a part of whose body may be left."""
        try:
            self._owner(name, token)
            begin = body.read(MOST_HEAD)
            if is_question(begin):
                return answer_of(DONE, "", file_size=0)
            if len(begin) < min(body.length, MOST_HEAD):
                raise NotNow("the message is not complete")
            return self._received(name, begin, body)
        except (BadMessage, Ended) as fault:
            self.counts.record(UploadEnd.REFUSED)
            log.warning("an upload is refused for good: %s", fault)
            return answer_of(NEVER, language.gettext("The project refuses this file."))
        except NotNow as fault:
            log.debug("an upload is put off: %s", fault)  # strangers could write many; the room logs its own
        except NoPlace:
            log.warning("an upload is put off: %s", "as many as possible are being received")
        except (OSError, sqlite3.Error) as fault:
            log.error("an upload is put off: %s", fault)
        self.counts.record(UploadEnd.PUT_OFF)
        return answer_of(AGAIN, language.gettext("The project can't take this file at the moment."))

    def _received(self, name: str | None, begin: bytes, body: Body) -> Response:
        """Receives a file, which the URL names or not, and returns the answer. Before it reads the file it
        checks all that the head says.
        """
        head = read_head(begin)
        if name not in (None, head.file.name):
            raise BadMessage("its URL is that of another file")
        if not self.tokens.is_token(head.token, head.file.name, head.max_nbytes):
            raise BadMessage("the token is not that of this file")
        if head.file.nbytes > head.max_nbytes:
            raise BadMessage(f"{head.file.name} has more bytes than it may have")
        if head.offset != 0:
            raise NotNow("it does not begin at the first byte")
        if body.length != head.length + head.file.nbytes:
            raise NotNow("its length is not that of its head and its file")
        owner = self.owners.of(head.file.name)
        with self.waiting.taken(), self.places.taken(PLACE_SECONDS):
            self.store.receive(head.file, owner, blocks_of(begin[head.length :], body))
        self.counts.record(UploadEnd.RECEIVED, head.file.nbytes)
        return answer_of(DONE, "")
