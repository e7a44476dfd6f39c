"""The settings on hosts, which are read again after each edit of the file, without a restart."""
import logging
import threading
from pathlib import Path

from bsched_files.project_settings import HostRules, read_settings
from bsched_files.toml_entries import OperatorFault

log = logging.getLogger(__name__)


class HostRuleReader:
    """Keeps the current settings on hosts. A faulty file changes nothing, and gets one line in the log."""

    def __init__(self, path: Path, rules: HostRules) -> None:
        self.path, self._rules = path, rules
        self._lock = threading.Lock()
        self._seen = self._state()

    def _state(self) -> tuple[int, int, int] | None:
        """Returns what changes if the file is edited, or None if the file can't be looked at."""
        try:
            status = self.path.stat()
        except OSError:
            return None
        return status.st_mtime_ns, status.st_size, status.st_ino

    def rules(self) -> HostRules:
        """Returns the current settings."""
        with self._lock:
            state = self._state()
            if state != self._seen:
                self._seen = state
                self._read()
            return self._rules

    def _read(self) -> None:
        """Reads the file. If it is faulty, the settings stay as they were."""
        try:
            rules = read_settings(self.path).host_rules
        except OperatorFault as fault:
            log.error("the settings on hosts stay as they were: %s", fault)
            return
        if rules != self._rules:
            log.info("most_hosts is %d, and %d keys are barred", rules.most_hosts, len(rules.barred))
        self._rules = rules
