"""What is said and asked on the terminal, and the signals that come from it."""
import os
import signal
import sys
import time
from collections.abc import Iterator
from contextlib import contextmanager

SIGNALS = (signal.SIGINT, signal.SIGTERM, signal.SIGHUP)  # they end a run
began = time.monotonic()


def say(text: str) -> None:
    """Prints what happened, and how many seconds after the start."""
    print(f"{time.monotonic() - began:6.1f} s  {text}", flush=True)


def is_confirmed(question: str) -> bool:
    """Asks a question on the terminal, and returns whether the answer is yes. Without a terminal it is no."""
    if not sys.stdin.isatty():
        return False
    try:
        return input(f"{question} [y/N] ").strip().lower() in ("y", "yes")
    except EOFError:
        return False


@contextmanager
def undisturbed() -> Iterator[None]:
    """Has the signals that end a run wait until a step is over."""
    came = list[int]()
    former = {number: signal.signal(number, lambda one, _: came.append(one)) for number in SIGNALS}
    try:
        yield
    finally:
        for number, handler in former.items():
            signal.signal(number, handler)
    if came:
        os.kill(os.getpid(), came[0])
