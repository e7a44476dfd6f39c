"""The operator's key, as a message of this machine gives it. Few wrong ones are compared."""
import hmac

from ..common.limits import RecentCounts

MOST_WRONG_KEYS, WRONG_SECONDS = 10, 60.0


class OperatorKey:
    """Compares keys with the operator's one."""

    def __init__(self, text: str) -> None:
        self.text, self._wrong = text, RecentCounts(MOST_WRONG_KEYS, WRONG_SECONDS)

    def fault(self, key: str) -> str:
        """Returns what is wrong with a key, or nothing if it is the operator's. After too many wrong ones
        none is compared for a while.
        """
        if not self._wrong.take("key"):
            return "Too many wrong keys. Try again in a minute."
        if not hmac.compare_digest(key.encode(), self.text.encode()):
            return "This is not the operator's key."
        self._wrong.give_back("key")
        return ""
