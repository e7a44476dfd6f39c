"""The pictures of the project's page: one that the operator gives, and plots by `bsched-tools report`.

They are kept in memory, within limits, and sent under names with a hash of their content, so browsers may
keep them for good. The plots are read again after each change of the file that names them.
"""
from dataclasses import dataclass
from pathlib import Path

from werkzeug.exceptions import NotFound
from werkzeug.wrappers import Request, Response

from bsched_files.json_files import WatchedFile
from bsched_files.plots import NAME as LIST, read_plots
from bsched_files.project_settings import PICTURE_KINDS, Settings

from ..common.http_messages import FOR_GOOD, answer
from ..common.languages import gettext_noop
from .templates import SAFE_FIELDS, hash_of

# the titles of plots for translators; all else of a plot is in English
TITLES = gettext_noop("Results a day"), gettext_noop("Active computers"), gettext_noop("Credit")
# an SVG has a style of its own; opened alone it may do nothing else
PICTURE_FIELDS = {
    **SAFE_FIELDS,
    **FOR_GOOD,
    "Content-Security-Policy": "default-src 'none'; style-src 'unsafe-inline'; sandbox",
}


@dataclass(frozen=True, slots=True)
class Picture:
    """A picture."""

    name: str  # in its URL, with a hash of its content
    kind: str
    content: bytes
    text: str  # for those who do not see it
    title: str = ""


def new_picture(stem: str, suffix: str, content: bytes, text: str, title: str = "") -> Picture:
    """Returns a picture whose kind follows from the ending of its file."""
    name = f"{stem}-{hash_of(content)}{suffix}"
    return Picture(name, PICTURE_KINDS[suffix], content, text, title)


def pictures_of(path: Path) -> list[Picture]:
    """Reads the plots of a list. Raises Fault if they are none."""
    return [
        new_picture(plot.file.removesuffix(".svg"), ".svg", plot.svg, plot.text, plot.title)
        for plot in read_plots(path)
    ]


class Pictures:
    """The pictures of a project."""

    def __init__(self, settings: Settings) -> None:
        self.own: Picture | None = None
        if settings.picture is not None:
            content, suffix = settings.picture.read_bytes(), settings.picture.suffix.lower()
            self.own = new_picture("picture", suffix, content, settings.picture_text)
        path = None if settings.plots is None else settings.plots / LIST
        self._plots = WatchedFile[list[Picture]](
            path, pictures_of, [], "the plots stay as they were", keeps_former=True
        )

    def plots(self) -> list[Picture]:
        """Returns the plots. If they can't be read, those before stay."""
        return self._plots.value()

    def answer(self, _message: Request, name: str) -> Response:
        """Sends a picture."""
        own = [] if self.own is None else [self.own]
        for picture in [*own, *self.plots()]:
            if picture.name == name:
                return answer(picture.kind, picture.content, PICTURE_FIELDS)
        raise NotFound
