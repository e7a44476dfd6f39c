"""The log of gunicorn without what messages say.

gunicorn logs the URL of a message that it can't hand on, for example one with a header field `SCRIPT_NAME`
that is not the beginning of its path. Newer versions also log the fault of a message that they refuse, with
the line or the field that has it, and the address that sent it. URLs have e-mail addresses, hashes of
passwords and keys. So the unit runs gunicorn with `--logger-class bsched_bridge.gunicorn_log.Logger`.
"""
import sys
import traceback

from gunicorn.glogging import Logger as GunicornLogger  # type: ignore[import]


class Logger(GunicornLogger):  # type: ignore[misc]
    """Logs where a message failed, and nothing that it said."""

    def exception(self, msg: str, *args: object, **kwargs: object) -> None:
        """Logs an exception without its text and without the arguments of the line."""
        kind, _, place = sys.exc_info()
        where = "".join(traceback.format_tb(place))
        name = kind.__name__ if kind else "no exception"
        self.error("gunicorn could not handle a message: %s\n%s", name, where)

    def warning(self, msg: str, *args: object, **kwargs: object) -> None:
        """Logs a warning. If it is about an exception, that of a message that gunicorn refuses, the line has
        the name of the exception alone.
        """
        kind = sys.exc_info()[0]
        if kind is None:
            super().warning(msg, *args, **kwargs)
        else:
            super().warning("gunicorn refused a message: %s", kind.__name__)
