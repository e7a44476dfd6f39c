"""The parts of a request as it arrives, block by block: XML for the parser, and what programs wrote.

What a program wrote to its standard error is in the request as it was written, in a CDATA section. It may
have `]]>`, or characters that XML does not allow. A message of a program (BOINC's documentation, "Trickle
messages") is in the request as it was written, too, and comes again with each request until a reply says that
it arrived. So neither reaches the parser: of a standard error it gets the output alone, as text, and of a
message nothing.

Anybody can send a request. So at no moment more than one standard error is in memory, and what the parser
gets is limited. The limits are above what a client needs: a host has at most 1,000 jobs.
"""
import codecs
import re
from collections.abc import Iterable, Iterator

from bsched_files.texts import MOST_OUTPUT, cut_to_bytes, xml_text

from ..common.languages import Text

MOST_XML = 4 * 1024 * 1024  # bytes of a request without its standard errors
# A client sends 63 KB of a standard error, and each byte beyond ASCII as a reference of six bytes.
MOST_ERROR = 512 * 1024
MOST_ERRORS = 2000
MOST_LOOKED_AT = 65_536  # bytes at the front of an answer: the output is the first 1,024 of them

ERROR, MESSAGE = b"<stderr_out>", b"<msg_from_host>"
SECTION = re.compile(ERROR + b"|" + MESSAGE)
INNER = re.compile(rb"<!\[CDATA\[|</stderr_out>")
INNER_ENDS = re.compile(rb"\]\]>[ \t\r\n]{0,64}</stderr_out>")
# a message may have such a tag in it, but no element follows there
MESSAGE_ENDS = re.compile(rb"</msg_from_host>[ \t\r\n]{0,64}(?=<[^/]|</scheduler_request>)")
OVERLAP = 128  # bytes; what is searched for is not longer

# The client puts what a program wrote to its standard error between these tags, after lines of its own. Only
# bytes beyond ASCII are changed: each is written as a character reference.
TEXT_BEGINS, TEXT_ENDS = b"<stderr_txt>", b"</stderr_txt>"
# Why a result failed, in the client's own words, if it is the client that says so.
MESSAGE_BEGINS, MESSAGE_TEXT_ENDS = b"<message>", b"</message>"
BYTE = re.compile(rb"&#(12[89]|1[3-9][0-9]|2[0-4][0-9]|25[0-5]);")
# A program may mark its answer, in case something else writes to its standard error too.
ANSWER_BEGINS, ANSWER_ENDS = b"<answer>", b"</answer>"

BLANKS = b" \t\r\n"
# the bytes below 32 that XML does not allow
CONTROLS = bytes(byte for byte in range(32) if byte not in BLANKS)
TO_QUESTION_MARKS = bytes.maketrans(CONTROLS, b"?" * len(CONTROLS))
ESCAPES = {"&": "&amp;", "<": "&lt;", ">": "&gt;", "\r": "&#13;"}


class RequestFault(Exception):
    """Raised if a request can't be read. The text tells a volunteer why (bridge/extract_texts finds it)."""

    def __init__(self, text: Text | str) -> None:
        super().__init__(str(text))
        self.text = text if isinstance(text, Text) else Text(text)


class Parts:
    """Splits a request while it arrives."""

    def __init__(self, blocks: Iterable[bytes]) -> None:
        self.has_messages = False
        self._blocks = iter(blocks)
        self._waiting = bytearray()
        self._found: bytes | None = None

    def xml(self) -> Iterator[bytes]:
        """Yields what the parser reads, in pieces. Raises RequestFault if it is too long."""
        decoder: codecs.IncrementalDecoder | None = None  # from the first byte beyond ASCII on
        length, errors = 0, 0
        for piece in self._pieces():
            if piece is None:
                errors += 1
                if errors > MOST_ERRORS:
                    raise RequestFault("the request has too many results")
                yield self._error()
                continue
            if decoder is not None or not piece.isascii():  # a character may go on in the next piece
                decoder = decoder or codecs.getincrementaldecoder("utf-8")("replace")
                plain = decoder.decode(piece).replace("\ufffe", "\ufffd").replace("\uffff", "\ufffd")
                piece = plain.encode()
            text = piece.translate(TO_QUESTION_MARKS)
            length += len(text)
            if length > MOST_XML:
                raise RequestFault("the request is too long")
            yield text

    def _pieces(self) -> Iterator[bytes | None]:
        """Yields the pieces between standard errors and messages, and None where a standard error begins."""
        while True:
            yield from self._before(SECTION)
            if self._found is None:
                return
            if self._found == ERROR:
                yield None
                continue
            self.has_messages = True
            for _ in self._before(MESSAGE_ENDS):
                pass

    def _before(self, pattern: re.Pattern[bytes]) -> Iterator[bytes]:
        """Yields what is before the next place at which a pattern fits. That place is skipped, and its bytes
        are in _found. At the end of the request, _found is None.
        """
        while (found := pattern.search(self._waiting)) is None:
            if len(self._waiting) > OVERLAP:
                yield bytes(self._waiting[:-OVERLAP])
                del self._waiting[:-OVERLAP]
            block = next(self._blocks, None)
            if block is None:
                self._found = None
                yield bytes(self._waiting)
                self._waiting.clear()
                return
            self._waiting += block
        yield self._taken(found)

    def _taken(self, found: re.Match[bytes]) -> bytes:
        """Returns what is before a place that was found, and skips the place."""
        self._found = found[0]
        front = bytes(self._waiting[: found.start()])
        del self._waiting[: found.end()]
        return front

    def _error(self) -> bytes:
        """Reads a standard error, and returns the element with its output for the parser."""
        text = self._short(INNER)
        if self._found == b"<![CDATA[":
            text = self._short(INNER_ENDS)
        if self._found is None:
            raise RequestFault("the request is incomplete")
        output = output_of(text)
        for character, escape in ESCAPES.items():
            output = output.replace(character, escape)
        return f"<stderr_out>{output}</stderr_out>".encode()

    def _short(self, pattern: re.Pattern[bytes]) -> bytes:
        """Returns what is before the next place at which a pattern fits."""
        found = pattern.search(self._waiting, 0, MOST_ERROR)
        if found is not None:
            return self._taken(found)
        pieces, length = [], 0
        for piece in self._before(pattern):
            pieces.append(piece)
            length += len(piece)
            if length > MOST_ERROR:
                raise RequestFault("the standard error of a result is too long")
        return b"".join(pieces)


def between(text: bytes, begins: bytes, ends: bytes, to_the_last: bool = False) -> bytes | None:
    """Returns what is between the first begin and the first end after it, or the last end. Returns None if
    there is no such pair.

    Each place of the text is looked at once. A pattern such as `<a>(.*?)</a>` goes to the end of the text for
    each begin, and keeps all threads waiting meanwhile.
    """
    place = text.find(begins)
    if place < 0:
        return None
    first = place + len(begins)
    last = text.rfind(ends, first) if to_the_last else text.find(ends, first)
    return None if last < 0 else text[first:last]


def output_of(text: bytes) -> str:
    """Returns what a program wrote to its standard error, without blanks around it. If the program marked an
    answer in it, only that is returned. If it wrote nothing, the message of the client is returned, which
    says why the result failed: it is before the text, or after it if an upload failed. Bytes that are not
    UTF-8, and characters that XML does not allow, are U+FFFD.
    """
    inner = between(text, TEXT_BEGINS, TEXT_ENDS, to_the_last=True)
    if inner is not None and not inner.strip(BLANKS):
        parts = text[: text.find(TEXT_BEGINS)], text[text.rfind(TEXT_ENDS) :]
        messages = (between(part, MESSAGE_BEGINS, MESSAGE_TEXT_ENDS) for part in parts)
        inner = next((message for message in messages if message), b"")
    text = text if inner is None else inner
    marked = between(text, ANSWER_BEGINS, ANSWER_ENDS)
    text = (text if marked is None else marked).lstrip(BLANKS)[:MOST_LOOKED_AT]
    # the client writes a character of XML, or a reference for each byte
    plain = xml_text(text.decode(errors="replace"))
    decoded = BYTE.sub(lambda reference: bytes([int(reference[1])]), plain.encode()).decode(errors="replace")
    return cut_to_bytes(xml_text(decoded).strip(), MOST_OUTPUT)
