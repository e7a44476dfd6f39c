"""The URLs of the project, each with what answers it. Those with a value in them are found by Werkzeug."""
from collections.abc import Callable, Iterable
from dataclasses import dataclass
from typing import Any
from wsgiref.types import WSGIApplication, WSGIEnvironment

from werkzeug.exceptions import NotFound
from werkzeug.routing import BaseConverter, Map, RequestRedirect, Rule

Handler = Callable[..., WSGIApplication]  # takes a message, and returns what sends the answer
READ = ("GET", "HEAD")
FORMS = ("GET", "HEAD", "POST")


class Number(BaseConverter):
    """A number in a path, without zeros in front and of at most ten digits, as hostids have."""

    regex = "[1-9][0-9]{0,9}"

    def to_python(self, value: str) -> int:
        """Returns the number."""
        return int(value)


@dataclass(frozen=True, slots=True)
class Route:
    """A path below the master URL, in Werkzeug's form, with what answers it."""

    path: str
    handler: Handler
    methods: tuple[str, ...] = READ
    is_plain: bool = False  # whether it takes a message as the server gives it, and not as Werkzeug's request

    def rule(self) -> Rule:
        """Returns the rule. Werkzeug would allow HEAD with each GET, but some of them write."""
        rule = Rule(f"/{self.path}", endpoint=self.path, methods=self.methods)
        rule.methods = set(self.methods)
        return rule


class Routes:
    """All URLs of a project."""

    def __init__(self, path: str, routes: Iterable[Route]) -> None:
        found = list(routes)
        self._path, self._routes = path, {route.path: route for route in found}
        self._without_values = {
            (f"{path}{route.path}", method): route
            for route in found
            if "<" not in route.path
            for method in route.methods
        }
        rules = [route.rule() for route in found]
        urls = Map(rules, converters={"number": Number}, merge_slashes=False, redirect_defaults=False)
        self._urls = urls.bind("bridge")

    def matched(self, environ: WSGIEnvironment) -> tuple[Route | None, dict[str, Any]]:
        """Returns the route of a message, and the values in its path; None for a path of the project that
        does not exist. Raises NotFound for a path elsewhere, and MethodNotAllowed.
        """
        path = environ.get("SCRIPT_NAME", "") + environ.get("PATH_INFO", "")
        method = environ["REQUEST_METHOD"]
        route = self._without_values.get((path, method))
        if route is not None:
            return route, {}
        if not path.startswith(self._path):
            raise NotFound
        name = path.removeprefix(self._path)
        if name.startswith("/"):  # Werkzeug would leave it out
            return None, {}
        try:
            # a name of a method in small letters is another name
            endpoint, values = self._urls.match(f"/{name}", method if method.isupper() else "NONE")
        except (NotFound, RequestRedirect):
            return None, {}
        return self._routes[endpoint], dict(values)
