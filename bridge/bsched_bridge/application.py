"""The WSGI application: it makes what answers messages, and what answers at each URL."""
import atexit
import logging
import threading
from collections.abc import Callable, Iterable
from functools import partial
from pathlib import Path
from wsgiref.types import StartResponse, WSGIApplication, WSGIEnvironment

from werkzeug.exceptions import HTTPException
from werkzeug.wrappers import Request, Response

from bsched_files.counts import counts_in
from bsched_files.operator_state import PATH as OPERATOR_STATE
from bsched_files.project_settings import HostRules, Settings, read_settings

from .accounts.actions import AccountPlaces, Accounts
from .accounts.messages import AccountMessages, project_config
from .accounts.teams import Teams
from .catalogue.contents import Catalogue
from .catalogue.downloads import Downloads
from .common.host_rules import HostRuleReader
from .common.http_messages import TEXT, XML, Message, answer, is_of_this_machine, log_fault, plain_answer
from .common.limits import Places
from .common.routes import FORMS, Handler, Route, Routes
from .common.state_file import StateFile
from .exchange.answers import Exchange, PutOff, Resending
from .exchange.client_replies import ReplyWriter
from .exchange.host_search import HostSearch
from .exchange.host_states import Flushing, HostStates
from .exchange.large_calls import LargeCalls
from .exchange.messages import SchedulerMessages
from .exchange.vain_calls import VainCalls
from .operator.board import Board
from .operator.key import OperatorKey
from .operator.metrics import Metrics
from .operator.overview import Overviews
from .operator.state import OperatorState
from .pages.account_pages import AccountPages
from .pages.feeds import ATOM, CLIENT, RSS, Feeds
from .pages.news import News, NewsPages
from .pages.pictures import Pictures
from .pages.project_pages import Pages
from .pages.statements import Statements
from .pages.team_pages import TeamPages
from .pages.templates import Templates
from .pages.volunteer_pages import VolunteerPages
from .people.archives import fold, read_archives
from .people.barring import Barring, is_barred
from .people.credit_days import CreditDays
from .people.directory import Directory
from .people.hosts import Hosts
from .people.measurements import Measurements
from .people.members import Members
from .people.passwords import Passwords
from .people.recent_credit import RecentCredit
from .scheduler.messages import Scheduler
from .scheduler.probe import SchedulerProbe
from .uploads.current_catalogue import CatalogueFaults, CatalogueReader
from .uploads.digest_queue import DigestQueue
from .uploads.handed_out import HandedOut
from .uploads.messages import CHECK_PATH as UPLOAD_CHECK_PATH
from .uploads.messages import PATH as UPLOAD_PATH
from .uploads.messages import UploadMessages
from .uploads.owners import UploadOwners
from .uploads.report_checks import ReportChecks
from .uploads.store import UploadStore, open_store
from .uploads.tokens import UploadTokens

KEPT_THREADS = 2  # for pages and files, which need nothing of bsched
# for a place; the server has as many threads besides `threads`, and those of large calls
UPLOADS_WAITING = 16

log = logging.getLogger(__name__)


class Application:
    """The application between clients and bsched."""

    def __init__(
        self,
        settings: Settings,
        catalogue: Catalogue | Callable[[], Catalogue],
        file: StateFile,
        scheduler: Scheduler,
        rules: Callable[[], HostRules] | None = None,
        passwords: Passwords | None = None,
        store: UploadStore | None = None,
        faults: CatalogueFaults | None = None,
    ):
        self.settings, self.scheduler, self.store = settings, scheduler, store
        self.faults = faults or CatalogueFaults()
        self.current = current = (lambda: catalogue) if isinstance(catalogue, Catalogue) else catalogue
        key, archives, barring = settings.operator_key, read_archives(settings.archives), Barring(file)
        fold(file, archives)
        hosts, self.members, recent = Hosts(file), Members(file), RecentCredit(settings.averages)
        self.file, self.rules = file, rules or (lambda: settings.host_rules)
        self.measurements = measured = Measurements()
        self.teams, self.directory = Teams(file), Directory(file)
        half = max(1, settings.threads // 2)
        self.places = Places(max(1, settings.threads - KEPT_THREADS))
        self.account_places = AccountPlaces(Places(half, self.places))
        self.upload_places = Places(half, self.places)
        waiting = Places(half + UPLOADS_WAITING)
        self.uploads: UploadMessages | None = None
        if store is not None:
            owners = UploadOwners(HandedOut(store.tables), partial(is_barred, barring, self.rules))
            self.uploads = UploadMessages(store, owners, self.upload_places, waiting, measured.uploads)
        self.downloads = Downloads(current, Places(half, self.places), settings.retry_delay)
        self.accounts: Accounts | None = None
        if settings.accounts is not None and key is not None:
            self.accounts = Accounts(
                settings.accounts, self.members, scheduler, key, passwords or Passwords(), barring
            )
        reports: ReportChecks | None = None
        self.digests: DigestQueue | None = None
        if store is not None and key is not None:
            jobs = HandedOut(store.tables)
            self.digests = digests = DigestQueue(store, jobs, store.settings.digest_seconds)
            reports = ReportChecks(current, store, jobs, hosts, scheduler, key, digests, measured.put_offs)
        self.exchange = Exchange(
            hosts,
            HostStates(file, archives),
            scheduler,
            settings.retry_delay,
            self.rules,
            HostSearch(hosts, scheduler, key),
            barring,
            self.accounts.import_again if self.accounts else lambda _authenticator: False,
            archives,
            reports,
            settings.contact,
            measured.reports,
            measured.held_back,
        )
        tokens = None if store is None else UploadTokens(store.secret)
        self.news = News(settings.news)
        self.writer = ReplyWriter(
            current(),
            settings.name,
            settings.url,
            tokens,
            has_accounts=self.accounts is not None,
            has_news=self.news.is_used,
        )
        self.vain = VainCalls(lambda: self.rules().vain_seconds, settings.retry_delay)
        self.requests = SchedulerMessages(
            self.exchange,
            current,
            self.writer,
            recent,
            self.places,
            LargeCalls(settings.state.parent, self._refusal_of),
            self.vain,
            measured.calls,
        )
        self.statements = Statements(
            hosts, self.members, scheduler, key, counts_in(settings.counts), archives, recent
        )
        self.templates = Templates(settings, self.news.is_used)
        self.pictures = Pictures(settings)
        self.pages = Pages(
            settings, self.templates, self.statements, self.pictures, self.directory, self.news
        )
        self.volunteers = VolunteerPages(
            settings, self.templates, self.directory, CreditDays(file), self.statements, self.teams
        )
        routes = [*self._routes(), *self._account_routes(), *self._operator_routes()]
        self.routes = Routes(settings.path, routes)

    def _refusal_of(self, authenticator: str) -> PutOff | None:
        """Returns what a client reads whose call is refused before it is read, or None."""
        return self.vain.refusal_of(authenticator) or self.exchange.refusal_of(authenticator)

    @property
    def catalogue(self) -> Catalogue:
        """The catalogue as it is now."""
        return self.current()

    def _routes(self) -> list[Route]:
        """Returns what answers at the URLs that each project has."""
        messages = AccountMessages(self.settings, self.accounts, self.scheduler, self.account_places)
        news, feeds = NewsPages(self.templates, self.news), Feeds(self.settings, self.news)
        routes = [
            Route("", self.pages.project),
            Route("cgi", self.requests.answer, ("POST",), is_plain=True),
            Route("get_project_config.php", self._project_config),
            Route("lookup_account.php", messages.look_up, ("GET",)),
            Route("create_account.php", messages.create, ("GET",)),
            Route("status", self.pages.status),
            Route("help", self.pages.help),
            Route("news", news.all),
            Route("news/<number:number>", news.one),
            Route(ATOM, feeds.atom),
            Route(RSS, feeds.rss),
            Route(CLIENT, feeds.client),
            Route("users", self.volunteers.users),
            Route("user/<number:number>", self.volunteers.user),
            Route("computers", self.volunteers.computers),
            Route("computer/<number:number>", self.volunteers.computer),
            Route("download/<path:name>", self.downloads.send),
            Route(self.templates.style_name, self.templates.style),
            Route("picture/<name>", self.pictures.answer),
        ]
        if self.uploads is not None:
            routes += [
                Route(f"{UPLOAD_PATH}/<name>/<token>", self.uploads.answer, ("POST",)),
                Route(UPLOAD_PATH, self.uploads.answer, ("POST",)),
                Route(UPLOAD_CHECK_PATH, self.uploads.checked),
            ]
        return routes

    def _account_routes(self) -> list[Route]:
        """Returns what answers at the URLs of accounts."""
        if self.accounts is None:
            return [Route("get_passwd.php", self.pages.no_passwords)]
        people = AccountPages(
            self.settings,
            self.templates,
            self.accounts,
            self.statements,
            self.account_places,
            self.teams,
            self.directory,
        )
        teams = TeamPages(self.templates, self.teams, self.directory)
        return [
            Route("teams", teams.list),
            Route("computer/<number:number>/team", self.volunteers.team_of),
            Route("team/<number:number>", teams.team),
            Route("account_team", people.team, ("POST",)),
            Route("account_preferences", people.change_preferences, ("POST",)),
            Route("account", people.account, FORMS),
            Route("account_finish.php", people.finish, FORMS),
            Route("get_passwd.php", people.password, FORMS),
            Route("delete_account.php", people.delete, FORMS),
            Route("terms", people.terms),
        ]

    def _operator_routes(self) -> list[Route]:
        """Returns what answers at the operator's URLs. They do not exist for messages from elsewhere."""
        settings, key = self.settings, self.settings.operator_key
        probe = SchedulerProbe(self.scheduler, key)
        overviews = Overviews(
            settings, self.file, self.store, self.measurements, probe, self.faults, self.digests
        )
        routes = [Route("operator/metrics", self._for_operator(Metrics(overviews).answer))]
        if key is not None:
            operator = OperatorKey(key)
            board = Board(
                settings, operator, self.templates, overviews, self.directory, self.statements, self.rules
            )
            routes.append(Route("operator/board", self._for_operator(board.answer), FORMS))
            state = OperatorState(overviews, operator)
            routes.append(Route(OPERATOR_STATE, self._for_operator(state.answer)))
        return routes

    def _for_operator(self, handler: Handler) -> Handler:
        """Returns a handler that answers messages of this machine alone."""
        field = self.settings.accounts.address_field if self.settings.accounts else None

        def handle(message: Request) -> WSGIApplication:
            if is_of_this_machine(message, field):
                return handler(message)
            return self.pages.not_found(message)

        return handle

    def __call__(self, environ: WSGIEnvironment, start_response: StartResponse) -> Iterable[bytes]:
        """Answers a message (PEP 3333)."""
        return self._answer(environ)(environ, start_response)

    def _answer(self, environ: WSGIEnvironment) -> WSGIApplication:
        """Returns what sends the answer to a message."""
        try:
            route, values = self.routes.matched(environ)
            if route is not None and route.is_plain:
                return route.handler(environ)
            message = Message(environ, populate_request=False)
            if route is not None:
                return route.handler(message, **values)
            return self.pages.not_found(message)
        except HTTPException as fault:
            return plain_answer(fault)
        except Exception as error:
            log_fault(error)
            return answer(TEXT, b"Internal Server Error\n", status=500)

    def _project_config(self, _message: Request) -> Response:
        """Returns what a client asks for before it attaches."""
        return answer(XML, project_config(self.settings, self.catalogue))


def new_application(path: Path) -> Application:
    """Returns the application of a settings file, with its state file. A thread sends open messages again in
    the background, and another one writes the answers that are only in memory.
    """
    settings = read_settings(path)
    if settings.is_without_addresses:
        log.warning("all volunteers count as one address, that of the proxy: set address_field in [accounts]")
    catalogues = CatalogueReader(settings)
    scheduler = Scheduler(settings.scheduler, settings.answer_seconds, settings.operator_key)
    rules = HostRuleReader(path, settings.host_rules)
    file = StateFile(settings.state)  # no other bridge has it from now on, nor the folder of uploads
    store = open_store(settings, catalogues.current())
    application = Application(
        settings, catalogues.current, file, scheduler, rules.rules, store=store, faults=catalogues.faults
    )
    threading.Thread(target=catalogues.check_digests, name="digest check", daemon=True).start()
    resend_accounts = application.accounts.resend_open if application.accounts else None
    Resending(application.exchange, settings.retry_delay, resend_accounts).start()
    Flushing(application.exchange.states).start()
    atexit.register(application.exchange.states.flush)
    return application


def served(path: str) -> Application:
    """Returns the application of a settings file, for a WSGI server that takes the name of a function to
    call.
    """
    log_own_lines()
    application = new_application(Path(path))
    application.templates.compile()
    return application


def log_own_lines() -> None:
    """Has the bridge's lines logged that are no faults, too: what the operator edited, and that it counts. A
    server that sets up no log for them, such as gunicorn, would leave these out.
    """
    package = logging.getLogger(__package__)
    if not package.handlers:
        package.addHandler(logging.StreamHandler())
    package.setLevel(logging.INFO)
    package.propagate = False
