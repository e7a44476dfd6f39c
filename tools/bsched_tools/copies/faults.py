"""What ends a step of a command, or the command."""


class Retry(Exception):
    """Raised if another process was in the way for a moment. The same step may succeed at the next try."""


class Ended(BaseException):
    """Raised if a signal ends the command. What continues after a fault does not continue after this."""
