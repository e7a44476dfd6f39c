"""Progress bars on a terminal, and nothing elsewhere."""
import sys
import time

WIDTH, PAUSE_SECONDS = 30, 0.1


class Bar:
    """A bar on standard error, with what is done and of how many."""

    def __init__(self, what: str) -> None:
        self.what, self._is_shown, self._next = what, sys.stderr.isatty(), 0.0
        self._has_drawn = False

    def seen(self, done: int, total: int) -> None:
        """Draws the bar, but not too often."""
        now = time.monotonic()
        if not self._is_shown or (now < self._next and done < total):
            return
        self._next, self._has_drawn = now + PAUSE_SECONDS, True
        filled = WIDTH * done // max(total, 1)
        text = f"\r{self.what} [{'#' * filled}{' ' * (WIDTH - filled)}] {done:,} of {total:,}"
        print(text, end="\n" if done >= total else "", file=sys.stderr, flush=True)
        self._has_drawn = done < total

    def end(self) -> None:
        """Ends the line of a bar that is not full."""
        if self._has_drawn:
            print(file=sys.stderr, flush=True)
            self._has_drawn = False
