"""How another program is run to its end."""
import subprocess
from collections.abc import Mapping, Sequence
from typing import Any

from .faults import Fault


def run(
    words: Sequence[str],
    seconds: float | None = None,
    is_captured: bool = True,
    rights: Mapping[str, Any] | None = None,
) -> subprocess.CompletedProcess[str]:
    """Runs a program to its end, without input, and returns its status with what it printed. If it is not
    captured, it prints to where this program does. The rights are options of `subprocess.run`, such as the
    user. Raises Fault if it can't be run, or is not done after this many seconds; it is killed then.
    """
    try:
        return subprocess.run(
            words,
            stdin=subprocess.DEVNULL,
            capture_output=is_captured,
            text=True,
            errors="replace",
            timeout=seconds,
            **(rights or {}),
        )
    except (OSError, subprocess.TimeoutExpired) as error:
        raise Fault(f"{words[0]}: {getattr(error, 'strerror', None) or error}") from None
