"""What the XML of a scheduler_request says (BOINC's documentation, "Scheduler RPC protocol").

The elements become what the profile accepts, by the table in 'Writing a bridge' of docs/PROFILE.md. Decimals
become whole numbers, and what is longer than the profile allows is cut. What programs wrote does not reach
the XML parser (the module `parts`).

Nearly all requests are short and have no comment, section or document type. Python's own parser reads
these, without the elements that the bridge does not need. The others go to defusedxml's parser, piece by
piece, which refuses entities and document types. Both give the same request.
"""
from collections.abc import Iterable, Iterator
from dataclasses import dataclass
from decimal import Decimal, InvalidOperation
from itertools import chain
from xml.etree.ElementTree import Element, ParseError, TreeBuilder, XMLParser

from defusedxml import DefusedXmlException  # type: ignore[import]
from defusedxml.ElementTree import DefusedXMLParser  # type: ignore[import]

from bsched_files.texts import MOST_OUTPUT, cut_to_bytes, is_word

from ..common.languages import Text, gettext_lazy, gettext_noop
from .descriptions import described
from .parts import Parts, RequestFault

MOST_BYTES = 16 * 1024 * 1024  # of a request; a result has at most 64 KB of standard error
# A client with 1,000 jobs of all its projects sends some 10,000 elements.
MOST_ELEMENTS = 100_000
MOST_DEPTH = 20
MOST_TAG = 65_536  # bytes of a start tag with its attributes, or of a comment
# Bytes of XML that are read at once, without limits of their own: they have room for 32,768 elements or
# 26,214 attributes. However deep the elements are, Python makes and frees them without recursion.
MOST_AT_ONCE = 131_072
# What begins a comment, a section, a document type or an instruction. Without them, each `<` begins a tag.
OTHERS_THAN_TAGS = b"<!", b"<?"
# Elements that the bridge does not need, with most of a request's text.
UNUSED = [
    (f"<{name}>".encode(), f"</{name}>".encode())
    for name in (
        "working_global_preferences",
        "time_stats",
        "net_stats",
        "disk_usage",
        "app_versions",
        "in_progress_results",
    )
]
MOST_NUMBER, NO_NUMBER = 10**18, Decimal("nan")
MOST_DIGITS = 18  # of a number that is read at once; the others are read as decimals
MOST_SECONDS = 10**9
MOST_PLATFORMS = 7
MOST_COPROCS = 16  # types of coprocessors of a host
# the elements of graphics cards, with the types by which versions name them
COPROC_TYPES = {"coproc_cuda": "NVIDIA", "coproc_ati": "ATI", "coproc_intel_gpu": "intel_gpu"}
MOST_NAME = 254
FINISHED = 5  # the client's state of a result that ended well (RESULT_FILES_UPLOADED)
LEAST_STATUS, MOST_STATUS = -(2**31), 2**31 - 1
WITHOUT_STATUS = 1  # the exit status that is reported if a result did not end well and has none
UPLOAD_STATUS = -187  # the same for a result that lacks an output file (BOINC's ERR_RESULT_UPLOAD)


@dataclass(frozen=True, slots=True)
class ReportedFile:
    """An output file that the client has uploaded, as it says."""

    name: str
    nbytes: int
    md5: str


@dataclass(frozen=True, slots=True)
class Report:
    """A result that the client has finished."""

    name: str
    exit_status: int
    output: str
    files: tuple[ReportedFile, ...] = ()


@dataclass(frozen=True, slots=True)
class Coproc:
    """A type of coprocessor of a host."""

    type: str
    count: int
    req_secs: int  # for how many seconds of it the client asks


@dataclass(frozen=True, slots=True)
class ClientRequest:
    """A request, within the ranges of the profile."""

    authenticator: str
    hostid: int  # the number that the client was given, or 0
    rpc_seqno: int  # the client's count of the replies that it got
    host_cpid: str
    p_fpops: int
    m_nbytes: int
    d_free: int
    platform_name: str
    alt_platforms: tuple[str, ...]
    work_req_seconds: int
    other_results: tuple[str, ...] | None  # None if the client does not say what it has
    results: tuple[Report, ...]
    # the key that the client has, without blanks and line ends; empty if it has none
    code_sign_key: str
    has_messages: bool  # of programs; a reply acknowledges them, else they come again
    p_ncpus: int = 1
    cpu_req_secs: int = 0  # the part of work_req_seconds that is for processors
    coprocs: tuple[Coproc, ...] = ()
    about: str | None = None  # what the computer says of itself, for people
    # when the client's preferences were changed; None if it can't be read
    preferences_time: int | None = 0


# ---- Elements


class Fields:
    """The elements in an element that has one of each name. If there are more, the last one counts."""

    def __init__(self, *parents: Element, of: str = "") -> None:
        self._elements = {element.tag: element for parent in parents for element in parent}
        self._of = of  # with which a fault names an element

    def _fault(self, message: str, name: str) -> RequestFault:
        """Returns the fault that a message says of an element."""
        return RequestFault(Text(message, {"name": f"{self._of}{name}"}))

    def __contains__(self, name: str) -> bool:
        """Returns whether there is such an element."""
        return name in self._elements

    def text(self, name: str) -> str | None:
        """Returns the text of an element, without blanks around it. If there is no such element, returns
        None.
        """
        element = self._elements.get(name)
        return None if element is None else (element.text or "").strip()

    def whole(self, name: str, least: int, most: int, absent: int, up: bool = False) -> int:
        """Returns the whole number of an element, rounded down or up. A number outside the range becomes its
        nearest bound. If there is no such element, returns `absent`.
        """
        element = self._elements.get(name)
        if element is None:
            return absent
        text = (element.text or "").strip()
        front, _, rest = text.partition(".")
        if text.isascii() and front.isdigit() and (rest.isdigit() or not rest) and len(front) <= MOST_DIGITS:
            whole = int(front) + (up and bool(rest.strip("0")))
            return min(max(whole, least), most)
        try:
            number = Decimal(text)
        except InvalidOperation:
            number = NO_NUMBER
        if number.is_nan():
            raise self._fault(gettext_noop("%(name)s is not a number"), name)
        if number <= least:
            return least
        if number >= most:
            return most
        whole = int(number)
        return whole + (up and whole < number)

    def word(self, name: str) -> str:
        """Returns the word of an element, which must exist."""
        word = self.text(name)
        if word is None or not is_word(word):
            raise word_fault(f"{self._of}{name}")
        return word


def word_fault(name: str) -> RequestFault:
    """Returns the fault of a request without the word of an element."""
    message = gettext_noop("%(name)s is missing, or is not 1 to 64 letters, digits, '_', '-' and '.'")
    return RequestFault(Text(message, {"name": name}))


def is_result_name(name: str) -> bool:
    """Returns whether a text can be the name of a result in a call."""
    return 1 <= len(name.encode()) <= MOST_NAME


# ---- Results


def output_of(result: Element) -> str:
    """Returns what a program wrote to its standard error, as the module `parts` leaves it."""
    element = result.find("stderr_out")
    return "" if element is None else element.text or ""


def upload_fault(files: list[Fields]) -> str | None:
    """Returns why the client gave up an upload of a result, or None. Such a result ended well by its exit
    status and its state, although an output file is lost.
    """
    for file in files:
        if "error_msg" in file:
            name, why = file.text("name") or "", file.text("error_msg") or ""
            return cut_to_bytes(f"output file {name} was not uploaded: {why}", MOST_OUTPUT)
    return None


def reported_file(file: Fields) -> ReportedFile:
    """Returns an output file of a result."""
    name, md5 = file.text("name") or "", file.text("md5_cksum") or ""
    return ReportedFile(name, file.whole("nbytes", 0, MOST_NUMBER, 0), md5)


def without_words(status: int, state: int) -> str:
    """Returns what is known of a result that failed and of which neither program nor client said a word."""
    if status:
        return f"exit status {status}"
    return f"a failure (state {state}), without a word or an exit status"


def report_of(result: Element) -> Report | None:
    """Returns the report of a finished result, or None if its name can't be a result's name."""
    fields = Fields(result)
    name = fields.text("name")
    if name is None or not is_result_name(name):
        return None
    sent = status = fields.whole("exit_status", LEAST_STATUS, MOST_STATUS, 0)
    state = fields.whole("state", 0, 100, 0)
    if status == 0 and state != FINISHED:
        status = WITHOUT_STATUS
    files = [Fields(file) for file in result.findall("file_info")]
    fault = upload_fault(files)
    if status == 0 and fault is not None:
        return Report(name, UPLOAD_STATUS, fault)
    output = output_of(result) or ("" if status == 0 else without_words(sent, state))
    return Report(name, status, output, tuple(map(reported_file, files)))


# ---- Coprocessors


def coprocs_of(root: Element) -> tuple[Coproc, ...]:
    """Returns the coprocessors of a host. Those of graphics cards have elements with names of their own."""
    found = []
    for element in [one for parent in root.findall("coprocs") for one in parent][:MOST_COPROCS]:
        fields = Fields(element)
        kind = COPROC_TYPES.get(element.tag) or fields.text("type")
        if kind is not None and (element.tag == "coproc" or element.tag in COPROC_TYPES):
            count = fields.whole("count", 0, 1000, 0)
            found.append(Coproc(kind, count, fields.whole("req_secs", 0, MOST_SECONDS, 0, up=True)))
    return tuple(found)


def preferences_time(root: Element) -> int | None:
    """Returns when the client's preferences were changed, rounded up; 0 if it has none. Another project may
    have written them, so a request is not refused for them.
    """
    try:
        return Fields(*root.findall("global_preferences")).whole("mod_time", 0, MOST_NUMBER, 0, up=True)
    except RequestFault:
        return None


# ---- The request


class Tree:
    """Builds the elements of a request, without attributes, up to a limit."""

    def __init__(self) -> None:
        self._builder = TreeBuilder()
        self.data, self.close = self._builder.data, self._builder.close
        self._count = self._depth = 0

    def start(self, tag: str, _attributes: dict[str, str]) -> None:
        """Begins an element. Raises RequestFault if there are too many."""
        self._count += 1
        self._depth += 1
        if self._count > MOST_ELEMENTS or self._depth > MOST_DEPTH:
            raise RequestFault("the request has too many elements")
        self._builder.start(tag, {})

    def end(self, tag: str) -> None:
        """Ends an element."""
        self._depth -= 1
        self._builder.end(tag)


def without_unused(text: bytes) -> bytes:
    """Returns a text in which each `<` begins a tag, with an empty element in the place of the first one of
    each unused kind.
    """
    for begins, ends in UNUSED:
        first = text.find(begins)
        last = text.find(ends, first) if first >= 0 else -1
        if last >= 0:
            text = text[:first] + b"<unused/>" + text[last + len(ends) :]
    return text


def element_at_once(text: bytes) -> Element | None:
    """Returns the element of a text, without what is not needed. Returns None if its XML is faulty, or has
    more than elements.
    """
    if any(mark in text for mark in OTHERS_THAN_TAGS):
        return None
    parser = XMLParser(encoding="utf-8")
    try:
        parser.feed(without_unused(text))
        root: Element = parser.close()
    except ParseError:
        return None
    return root


def element_in_pieces(pieces: Iterable[bytes]) -> Element:
    """Returns the element of a text that comes in pieces. Raises RequestFault if it is none."""
    parser = DefusedXMLParser(target=Tree(), encoding="utf-8", forbid_dtd=True)
    length = 0
    try:
        for piece in pieces:
            parser.feed(piece)
            length += len(piece)
            if length - parser.parser.CurrentByteIndex > MOST_TAG:
                raise RequestFault("the request has too long a tag")
        root: Element = parser.close()
    except ParseError as error:
        raise RequestFault(gettext_lazy("incomplete or faulty XML: %(error)s", error=str(error))) from None
    except DefusedXmlException:
        raise RequestFault("XML with a document type or entities is not accepted") from None
    return root


def element_of(pieces: Iterator[bytes]) -> Element:
    """Returns the element of a request. Raises RequestFault if it is none."""
    first, length = [], 0
    for piece in pieces:
        first.append(piece)
        length += len(piece)
        if length > MOST_AT_ONCE:
            break
    root = element_at_once(b"".join(first)) if length <= MOST_AT_ONCE else None
    if root is None:
        root = element_in_pieces(chain(first, pieces))
    if root.tag != "scheduler_request":
        raise RequestFault("the XML is not a scheduler_request")
    return root


def names_in(parents: Iterable[Element]) -> Iterator[str]:
    """Yields the name in each of some elements that has one."""
    for parent in parents:
        found = parent.findall("name")
        if found:
            yield (found[-1].text or "").strip()


def read_request(blocks: Iterable[bytes]) -> ClientRequest:
    """Reads the request from the blocks of a body. Raises RequestFault if it is none."""
    parts = Parts(blocks)
    root = element_of(parts.xml())
    fields = Fields(root)
    host = Fields(*root.findall("host_info"), of="host_info/")
    seconds = fields.whole("work_req_seconds", 0, MOST_SECONDS, 0, up=True)
    has = root.find("other_results")
    other = None if has is None else tuple(filter(is_result_name, names_in(has.findall("other_result"))))
    coprocs = coprocs_of(root)
    p_ncpus = host.whole("p_ncpus", 0, 10_000, 0)
    p_fpops = host.whole("p_fpops", 0, MOST_NUMBER, 0)
    m_nbytes = host.whole("m_nbytes", 0, MOST_NUMBER, 0)
    d_free = host.whole("d_free", 0, MOST_NUMBER, 0)
    shown = [f"{one.count} × {one.type}" for one in coprocs]
    return ClientRequest(
        authenticator=fields.word("authenticator"),
        hostid=fields.whole("hostid", 0, 2**31 - 1, 0),
        rpc_seqno=fields.whole("rpc_seqno", 0, 2**31 - 1, 0),
        host_cpid=host.word("host_cpid"),
        p_fpops=max(1, p_fpops),
        m_nbytes=m_nbytes,
        d_free=d_free,
        platform_name=fields.word("platform_name"),
        alt_platforms=tuple(filter(is_word, names_in(root.findall("alt_platform"))))[:MOST_PLATFORMS],
        work_req_seconds=seconds,
        other_results=other,
        results=tuple(filter(None, map(report_of, root.findall("result")))),
        code_sign_key="".join((fields.text("code_sign_key") or "").split()),
        has_messages=parts.has_messages,
        p_ncpus=max(1, p_ncpus),
        cpu_req_secs=fields.whole("cpu_req_secs", 0, MOST_SECONDS, seconds, up=True),
        coprocs=coprocs,
        about=described(fields, host, p_ncpus, m_nbytes, d_free, p_fpops, shown),
        preferences_time=preferences_time(root),
    )
