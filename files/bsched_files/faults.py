"""What ends a command, or a step of it."""


class Fault(Exception):
    """Raised if a command can't do its work. The text is one line, with the file and what to do."""
