"""What is wrong with a file of settings (docs/PROFILE.md, "Settings")."""
import re
import tomllib
from collections.abc import Iterator
from pathlib import Path
from typing import Any

from bsched_files.texts import WORD

RANGES = {
    "daily_result_quota": (1, 1_000_000),
    "max_hosts": (1, 100_000),
    "max_wus_in_progress": (1, 1_000),
    "max_wus_to_send": (1, 100),
    "request_delay": (0, 2_592_000),
}
KEYS = {*RANGES, "operator_key", "resend_lost_results"}


def value_fault(name: str, value: Any) -> str | None:
    """Returns what is wrong with the value of a setting, or None."""
    if name == "operator_key":
        if not isinstance(value, str) or not WORD.fullmatch(value) or len(value) < 8:
            return "it must be a text of 8 to 64 letters, digits, '_', '-' and '.'"
        return None
    if name == "resend_lost_results":
        return None if isinstance(value, bool) else "it must be true or false"
    low, high = RANGES[name]
    if type(value) is not int or not low <= value <= high:
        return f"it must be a whole number from {low} to {high}"
    return None


def shown(name: str, value: Any) -> str:
    """Returns a value as it is printed. The operator's key is a secret, and is not shown."""
    return "another text" if name == "operator_key" else repr(value)


def line_of(text: str, name: str) -> str:
    """Returns on which line of the text a key is."""
    found = re.search(rf"^[ \t]*[\"']?{re.escape(name)}[\"']?[ \t]*[=.]", text, re.MULTILINE)
    return "" if found is None else f"line {text.count(chr(10), 0, found.start()) + 1}: "


def settings_faults(path: Path) -> Iterator[str]:
    """Yields everything that is wrong with a file of settings."""
    try:
        text = path.read_text(encoding="utf-8")
        settings = tomllib.loads(text)
    except OSError as error:
        yield str(error.strerror)
        return
    except UnicodeDecodeError as error:
        yield f"line {error.object.count(bytes([10]), 0, error.start) + 1}: it is not UTF-8"
        return
    except tomllib.TOMLDecodeError as error:
        yield f"it is not TOML: {error}"
        return
    for name in sorted(settings.keys() - KEYS):
        yield f"{line_of(text, name)}{name} is not a setting: remove it"
    for name in sorted(KEYS - settings.keys()):
        yield f"{name} is missing"
    for name in sorted(KEYS & settings.keys()):
        if fault := value_fault(name, settings[name]):
            yield f"{line_of(text, name)}{name} is {shown(name, settings[name])}: {fault}"
