"""Moments: whole seconds since 1970 in UTC, and how people read them."""
from datetime import datetime, timezone

MINUTE, HOUR, DAY = 60, 3600, 86_400  # seconds
MOST_MOMENT = 250_000_000_000  # years have four digits


def moment_text(seconds: float | None) -> str:
    """Returns a moment as text, or `never` if there is none."""
    return "never" if seconds is None else _written(seconds, "%Y-%m-%d %H:%M:%S")


def minute_text(seconds: float) -> str:
    """Returns a moment without its seconds as text that says the time zone."""
    return _written(seconds, "%Y-%m-%d %H:%M UTC")


def time_text(seconds: float) -> str:
    """Returns the time of the day, without its seconds."""
    return _written(seconds, "%H:%M")


def date_text(seconds: float) -> str:
    """Returns the day of a moment as text."""
    return _written(seconds, "%Y-%m-%d")


def _written(seconds: float, form: str) -> str:
    return datetime.fromtimestamp(seconds, timezone.utc).strftime(form)
