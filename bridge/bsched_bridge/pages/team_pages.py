"""The pages of teams, which everybody can see: a list by credit, and one page for each."""
from werkzeug.wrappers import Request, Response

from ..accounts.teams import Team, Teams
from ..common.http_messages import query_of
from ..common.languages import language_of
from ..people.directory import MOST_SEARCH, Directory, User
from .page_numbers import PageOf, page_of
from .templates import Templates

ON_A_PAGE = 100


class TeamPages:
    """Answers people who ask about teams."""

    def __init__(self, templates: Templates, teams: Teams, directory: Directory) -> None:
        self.templates, self.teams, self.directory = templates, teams, directory

    def list(self, message: Request) -> Response:
        """Lists the teams, those with the most credit first."""
        name = query_of(message).get("name", "").strip()[:MOST_SEARCH]
        page: PageOf[Team] = page_of(
            message,
            self.teams.count(name),
            ON_A_PAGE,
            lambda first, most: self.teams.teams(first, most, name),
        )
        return self.templates.page("teams.html", language=language_of(message), page=page, name=name)

    def team(self, message: Request, number: int) -> Response:
        """Returns the page of a team."""
        team, language = self.teams.team(number), language_of(message)
        if team is None:
            return self.templates.page("not_found.html", language=language, http_status=404)
        known = team
        page: PageOf[User] = page_of(
            message, team.members, ON_A_PAGE, lambda first, most: self.teams.members(known, first, most)
        )
        return self.templates.page(
            "team.html",
            language=language,
            team=team,
            place=self.teams.place(team),
            of=self.teams.count(),
            page=page,
            founder=self.directory.user(team.founder),
        )
