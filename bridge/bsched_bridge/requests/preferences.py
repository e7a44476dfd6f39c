"""What a user wants of the clients: the project's share, how many processors, and whether only when idle.

A client takes any preferences that come, older ones too, and an empty element erases all that it has. It
sends with each request when its own were changed. So a reply has preferences only if they are newer.
"""
import json
from dataclasses import asdict, dataclass

from ..common.languages import ENGLISH, Language
from .xml_lines import XmlLines

MOST_SHARE = 10_000
WHOLE_DIGITS = 6


class PreferenceFault(Exception):
    """Raised for preferences that can't be. It names the field, and says why."""

    def __init__(self, field: str, text: str) -> None:
        super().__init__(text)
        self.field = field


@dataclass(frozen=True, slots=True)
class Preferences:
    """The preferences of a user."""

    share: int  # 100 is the client's own default; 0 only if no other project has work
    processors: int  # of a hundred
    is_only_idle: bool
    changed_at: int

    def written(self) -> str:
        """Returns them as JSON, for the state file."""
        return json.dumps(asdict(self))

    def add_to(self, xml: XmlLines, url: str, client_time: int | None) -> None:
        """Adds them to a reply. The client's time is when its own were changed; None if it can't be read, and
        then these may be older.
        """
        with xml.inside("project_preferences"):
            xml.add("resource_share", self.share)
        if client_time is None or self.changed_at <= client_time:
            return
        with xml.inside("global_preferences"):
            xml.add("source_project", url)
            xml.add("mod_time", self.changed_at)
            xml.add("run_if_user_active", int(not self.is_only_idle))
            xml.add("max_ncpus_pct", self.processors)


def whole(text: str, field: str, least: int, most: int, language: Language) -> int:
    """Returns the whole number that somebody typed. Says in a language what is wrong with it."""
    if text.isascii() and text.isdigit() and len(text) <= WHOLE_DIGITS and least <= int(text) <= most:
        return int(text)
    message = language.gettext("Give a whole number from %(least)s to %(most)s.")
    raise PreferenceFault(field, message % {"least": least, "most": language.number(f"{most:,}")})


def typed(
    share: str, processors: str, is_only_idle: bool, now: int, language: Language = ENGLISH
) -> Preferences:
    """Returns the preferences that somebody typed. Raises PreferenceFault."""
    return Preferences(
        whole(share, "share", 0, MOST_SHARE, language),
        whole(processors, "processors", 1, 100, language),
        is_only_idle,
        now,
    )


def read_preferences(text: str | None) -> Preferences | None:
    """Returns the preferences that the state file has, if there are any."""
    return Preferences(**json.loads(text)) if text else None
