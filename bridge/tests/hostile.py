"""Requests that somebody sends to use up the bridge's memory or its processor.

usage: hostile.py SMALL LARGE [SHAPE..] For each shape, or for those that are named, it reads requests in
eight threads, as gunicorn has them, with all limits of the application. It reads SMALL requests of a shape
that several threads may read at once, and LARGE of another. It prints the peak of the process's memory in MB
so far, the processor seconds for a request, and what came of the requests.
"""
import resource
import sys
import time
from concurrent.futures import ThreadPoolExecutor
from pathlib import Path

sys.dont_write_bytecode = True
BRIDGE = Path(__file__).resolve().parent.parent
sys.path[:0] = [str(BRIDGE), str(BRIDGE.parent / "files")]

from bsched_bridge.common.http_messages import blocks_of  # noqa: E402
from bsched_bridge.common.key_locks import Busy  # noqa: E402
from bsched_bridge.exchange.messages import LARGE_BYTES, RequestReader  # noqa: E402
from bsched_bridge.requests.calls import call_text  # noqa: E402
from bsched_bridge.requests.client_requests import MOST_BYTES  # noqa: E402
from bsched_bridge.requests.parts import RequestFault  # noqa: E402

THREADS = 8
HEAD = (
    b"<scheduler_request><authenticator>k</authenticator><platform_name>p</platform_name><host_info>"
    b"<host_cpid>c</host_cpid></host_info>"
)
ERROR, ERROR_END = b"<stderr_out><![CDATA[<stderr_txt>", b"</stderr_txt>]]></stderr_out>"
RESULT, RESULT_END = b"<result><name>r</name>", b"</result>"
END = b"</scheduler_request>"
EMOJI = "\U0001f600".encode()
MB = 1024 * 1024

# for each shape what comes first, what is repeated, what comes last, and how many bytes there are
SHAPES = {
    "ends of sections": (HEAD + RESULT + ERROR, b"]]>", ERROR_END + RESULT_END + END, MOST_BYTES),
    "ends of sections and an emoji": (
        HEAD + RESULT + ERROR + EMOJI,
        b"]]>",
        ERROR_END + RESULT_END + END,
        MOST_BYTES,
    ),
    "many standard errors": (
        HEAD,
        RESULT + ERROR + EMOJI + b"]]>" * 2700 + ERROR_END + RESULT_END,
        END,
        MOST_BYTES,
    ),
    "standard errors of references": (
        HEAD,
        RESULT + ERROR + b"&#195;" * 80_000 + ERROR_END + RESULT_END,
        END,
        MOST_BYTES,
    ),
    "attributes": (HEAD + b"<a", b" a=''", b"/>" + END, MOST_BYTES),
    "other attributes": (
        HEAD,
        b"<a " + b"".join(b"a%d=''" % n for n in range(2000)) + b"/>",
        END,
        MOST_BYTES,
    ),
    "elements": (HEAD, b"<a/>", END, MOST_BYTES),
    "elements of a small request": (HEAD, b"<a/>", END, LARGE_BYTES),
    "elements with an emoji": (HEAD, b"<a>" + EMOJI + b"</a>", END, LARGE_BYTES),
    "names": (
        HEAD + b"<other_results>",
        b"<other_result><name>a</name></other_result>",
        b"</other_results>" + END,
        LARGE_BYTES,
    ),
    "results": (HEAD, RESULT + RESULT_END, END, LARGE_BYTES),
    "a text and an emoji": (HEAD + b"<a>" + EMOJI, b"x", b"</a>" + END, 4 * MB - 200),
    "a text of a small request": (HEAD + b"<a>" + EMOJI, b"x", b"</a>" + END, LARGE_BYTES),
    "bytes that are no UTF-8": (HEAD + b"<a>", b"\xff", b"</a>" + END, MOST_BYTES),
    "characters that XML does not allow": (HEAD + b"<a>", b"\x01", b"</a>" + END, MOST_BYTES),
    "elements in elements": (HEAD, b"<a>", END, MOST_BYTES),
    "a message that never ends": (HEAD + b"<msg_from_host>", b"x</", END, MOST_BYTES),
    "a comment": (HEAD + b"<!--", b"x", b"-->" + END, MOST_BYTES),
    "references": (HEAD + b"<a>", b"&amp;", b"</a>" + END, MOST_BYTES),
    "nothing but zeros": (b"", b"\0", b"", MOST_BYTES),
}


class Body:
    """A body that is made while it is read, as it comes from a socket."""

    def __init__(self, shape: str) -> None:
        self.first, part, self.last, size = SHAPES[shape]
        self.count = (size - len(self.first) - len(self.last)) // len(part)
        self.part = part * max(1, MB // len(part))
        self.left = self.count * len(part)
        self.length = len(self.first) + self.left + len(self.last)

    def read(self, size: int) -> bytes:
        """Returns the next bytes."""
        if self.first:
            block, self.first = self.first, b""
            return block
        if self.left:
            block = self.part[: min(size, self.left)]
            self.part = self.part[len(block) :] + block  # the same bytes, as they go on
            self.left -= len(block)
            return block
        return self.last


def read(reader: RequestReader, shape: str) -> str:
    """Reads a request, and writes its call. Returns what came of it."""
    body = Body(shape)
    try:
        request = reader.read(blocks_of({"wsgi.input": body}, body.length), body.length)
    except (RequestFault, Busy) as fault:
        return type(fault).__name__
    call_text(request, "c", 1, [], 0)
    return "read"


def main() -> None:
    """Reads the requests."""
    for shape in sys.argv[3:] or SHAPES:
        count = int(sys.argv[2 if SHAPES[shape][3] > LARGE_BYTES else 1])
        reader, began = RequestReader(), time.process_time()
        with ThreadPoolExecutor(THREADS) as pool:
            ends = list(pool.map(lambda _: read(reader, shape), range(count)))
        seconds = (time.process_time() - began) / count
        peak = resource.getrusage(resource.RUSAGE_SELF).ru_maxrss // 1024
        print(f"{peak} MB, {seconds:.3f} seconds: {shape}: {', '.join(sorted(set(ends)))}")


if __name__ == "__main__":
    main()
