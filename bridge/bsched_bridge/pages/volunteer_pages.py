"""The pages of users and computers, which everybody can see: lists by credit, and one page for each."""
import time

from werkzeug.wrappers import Request, Response

from bsched_files.project_settings import Settings

from ..accounts.teams import Teams
from ..common.http_messages import TEXT, answer, query_of
from ..common.languages import language_of
from ..common.texts import RESULT_WORDS
from ..people.credit_days import CreditDays
from ..people.directory import MOST_SEARCH, Computer, Directory, User
from .badges import badges_of, kinds_of_badges
from .charts import chart_of
from .page_numbers import PageOf, page_of
from .statements import Statements
from .templates import Templates

ON_A_PAGE = 100
RESULTS_ON_A_PAGE = 50
MOST_COMPUTERS = 50  # on the page of a user


class VolunteerPages:
    """Answers people who ask about users and computers."""

    def __init__(
        self,
        settings: Settings,
        templates: Templates,
        directory: Directory,
        days: CreditDays,
        statements: Statements,
        teams: Teams,
    ) -> None:
        self.templates, self.directory, self.days, self.statements = templates, directory, days, statements
        self.teams = teams
        self._url = settings.url
        self._has_average = settings.averages is not None

    def _search(self, message: Request) -> str:
        """Returns the name that is searched for; empty if none is."""
        return query_of(message).get("name", "").strip()[:MOST_SEARCH]

    def users(self, message: Request) -> Response:
        """Lists the users, those with the most credit first."""
        name, language = self._search(message), language_of(message)
        page: PageOf[User] = page_of(
            message,
            self.directory.count_users(name),
            ON_A_PAGE,
            lambda first, most: self.directory.users(first, most, name),
        )
        averages = [self.average_of(user) for user in page.rows] if self._has_average else []
        places, now = self.directory.places(page.rows), time.time()
        count = self.directory.count_users() if name else page.count
        return self.templates.page(
            "users.html",
            language=language,
            page=page,
            name=name,
            averages=averages,
            places=places,
            badges=[
                list(badges_of(user.credit, place, count, user.created_at, now, language))
                for user, place in zip(page.rows, places)
            ],
            kinds=kinds_of_badges(language),
        )

    def computers(self, message: Request) -> Response:
        """Lists the computers, those with the most credit first."""
        name = self._search(message)
        page: PageOf[Computer] = page_of(
            message,
            self.directory.count_computers(name),
            ON_A_PAGE,
            lambda first, most: self.directory.computers(first, most, name),
        )
        return self.templates.page("computers.html", language=language_of(message), page=page, name=name)

    def average_of(self, user: User) -> float | None:
        """Returns the recent average credit of a user, if the operator has it computed."""
        return self.statements.average_of(user.authenticator) if self._has_average else None

    def user(self, message: Request, number: int) -> Response:
        """Returns the page of a user."""
        user, language = self.directory.user(number), language_of(message)
        if user is None:
            return self.templates.page("not_found.html", language=language, http_status=404)
        place, of = self.directory.place(user), self.directory.count_users()
        return self.templates.page(
            "user.html",
            language=language,
            user=user,
            badges=list(badges_of(user.credit, place, of, user.created_at, time.time(), language)),
            place=place,
            of=of,
            average=self.average_of(user),
            team=self.teams.team(user.team),
            chart=chart_of(self.days.of_member(number), language),
            computers=self.directory.computers_of(user, MOST_COMPUTERS),
        )

    def team_of(self, message: Request, number: int) -> Response:
        """Leads to the page of the team of a computer's user. A button of the Manager leads here."""
        computer = self.directory.computer(number)
        user = None if computer is None else self.directory.user(computer.user)
        if user is None or user.team is None:
            return self.templates.page("not_found.html", language=language_of(message), http_status=404)
        return answer(TEXT, b"", {"Location": f"{self._url}team/{user.team}"}, 303)

    def computer(self, message: Request, number: int) -> Response:
        """Returns the page of a computer."""
        computer, language = self.directory.computer(number), language_of(message)
        if computer is None:
            return self.templates.page("not_found.html", language=language, http_status=404)
        page, results = None, self.statements.results_of(computer)
        if results is not None:
            kept = results
            page = page_of(
                message,
                len(results),
                RESULTS_ON_A_PAGE,
                lambda first, most: kept[first : first + most],
            )
        return self.templates.page(
            "computer.html",
            language=language,
            computer=computer,
            page=page,
            chart=chart_of(self.days.of_host(number), language),
            result_words=RESULT_WORDS,
        )
