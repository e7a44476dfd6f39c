"""The XML of a scheduler_reply (BOINC's documentation, "Scheduler RPC protocol").

An element that means yes is written `<x>1</x>`. The client reads that as it reads `<x/>`. Texts for
volunteers are in the language that the request asks for. The client acts on none of them.
"""
import copy
import logging
from collections.abc import Callable, Iterable
from dataclasses import dataclass
from functools import partial

from bsched_files.file_names import plain_workunit
from bsched_files.texts import credit_number

from ..catalogue.contents import App, Catalogue, DownloadFile, MissingFile, Version, Work
from ..catalogue.output_files import upload_name
from ..common.languages import ENGLISH, LANGUAGES, Language, Text, gettext_lazy, gettext_noop
from ..people.recent_credit import Recent
from ..requests.client_requests import ClientRequest
from ..requests.plan_classes import PlanClass, split
from ..requests.preferences import read_preferences
from ..requests.xml_lines import XmlLines
from ..scheduler.messages import Job, Reply
from ..uploads.messages import PATH as UPLOAD_PATH
from ..uploads.tokens import UploadTokens
from .answers import PutOff

SCHEDULER_VERSION = 720  # the version of BOINC's scheduler that these replies imitate
KEY_CHANGED = gettext_noop(
    "The project has changed its code signing key. To fix this, remove and add this project."
)

# what a volunteer reads who asked for work and got none, by the end word of the reply
NO_JOBS = {
    "enough": gettext_noop("Project has no tasks available"),
    "reply_limit": gettext_noop("Project has no tasks available"),
    "in_progress_limit": gettext_noop("This computer has reached a limit on tasks in progress"),
    "daily_quota": gettext_noop("This computer has finished a daily quota of tasks"),
    "no_eligible_work": gettext_noop("No tasks are available for this computer"),
}


@dataclass(frozen=True, slots=True)
class Button:
    """A button of the Manager: its name, what it says of itself, and a page."""

    name: str
    description: str
    path: str  # with {number} in place of the number of the client's computer


ACCOUNT = Button(gettext_noop("Your account"), gettext_noop("Your computers, credit and settings"), "account")
TASKS = Button(
    gettext_noop("Your tasks"),
    gettext_noop("The tasks of this computer, with their state, deadline and credit"),
    "computer/{number}",
)
TEAM = Button(
    gettext_noop("Your team"),
    gettext_noop("The members of your team, and its credit"),
    "computer/{number}/team",
)
STATUS = Button(
    gettext_noop("Project status"), gettext_noop("Work, users and computers of the project"), "status"
)
HELP = Button(gettext_noop("Help"), gettext_noop("Answers to questions, and how to ask more"), "help")

FEED, FEED_SECONDS = "notices.rss", 86_400  # of the news; after so long a client reads it again

log = logging.getLogger(__name__)


@dataclass(frozen=True, slots=True)
class NeededFile:
    """A file that a client downloads for its jobs."""

    file: DownloadFile
    signature: str | None  # input files have none
    is_executable: bool


Files = dict[str, NeededFile]  # by name


AGAIN_SECONDS = 120  # within which a client calls again whose reports were put off

# ---- Replies


def without_blanks(key: str) -> str:
    """Returns a key without its blanks and line ends."""
    return "".join(key.split())


def head_of(name: str, url: str) -> list[str]:
    """Returns the lines with which each reply of a project begins."""
    xml = XmlLines("scheduler_reply")
    xml.add("scheduler_version", SCHEDULER_VERSION)
    xml.add("master_url", url)
    xml.add("project_name", name)
    return xml.inner_lines()


def buttons_of(has_accounts: bool, has_number: bool, has_team: bool) -> list[Button]:
    """Returns the buttons that the Manager shows to a user. Each leads to a page that exists."""
    buttons = {
        ACCOUNT: has_accounts,
        TASKS: has_number,
        TEAM: has_accounts and has_number and has_team,
        STATUS: True,
        HELP: True,
    }
    return [button for button, has_page in buttons.items() if has_page]


def button_lines(url: str, buttons: Iterable[Button], language: Language) -> str:
    """Returns the lines of a reply that have some buttons."""
    xml = XmlLines("scheduler_reply")
    with xml.inside("gui_urls"):
        for button in buttons:
            with xml.inside("gui_url"):
                xml.add("name", language.text(button.name))
                xml.add("description", language.text(button.description))
                xml.add("url", f"{url}{button.path}")
    return "\n".join(xml.inner_lines())


def feeds_of(url: str) -> list[str]:
    """Returns the lines that name the feed of the news, which the client reads for the Manager. A client that
    has the feed keeps it if a later reply does not name it.
    """
    xml = XmlLines("scheduler_reply")
    with xml.inside("rss_feeds"), xml.inside("rss_feed"):
        xml.add("url", f"{url}{FEED}")
        xml.add("poll_interval", FEED_SECONDS)
    return xml.inner_lines()


class ReplyWriter:
    """Writes the replies of a project."""

    def __init__(
        self,
        catalogue: Catalogue,
        name: str,
        url: str,
        tokens: UploadTokens | None = None,
        has_accounts: bool = False,
        has_news: Callable[[], bool] = lambda: False,
    ) -> None:
        self.url, self.tokens = url, tokens
        self._head = head_of(name, url)
        self._buttons = {
            (tag, has_number, has_team): button_lines(
                url, buttons_of(has_accounts, has_number, has_team), one
            )
            for tag, one in LANGUAGES.items()
            for has_number in (False, True)
            for has_team in (False, True)
        }
        self._feeds, self._has_news = feeds_of(url), has_news
        self._set_catalogue(catalogue)

    def _set_catalogue(self, catalogue: Catalogue) -> None:
        """Writes replies with this catalogue from now on."""
        self.catalogue, self._key = catalogue, without_blanks(catalogue.code_sign_key)
        self._lines: dict[tuple[str | int, ...], list[str]] = {}

    def with_catalogue(self, catalogue: Catalogue) -> "ReplyWriter":
        """Returns a writer of the same project with this catalogue."""
        if catalogue is self.catalogue:
            return self
        writer = copy.copy(self)
        writer._set_catalogue(catalogue)
        return writer

    def _once(
        self, xml: XmlLines, key: tuple[str | int, ...], add: Callable[[XmlLines], None], level: int = 1
    ) -> None:
        """Adds lines that replies have as long as the catalogue stays the same. They are written once."""
        lines = self._lines.get(key)
        if lines is None:
            written = XmlLines("scheduler_reply", level)
            add(written)
            lines = self._lines[key] = written.inner_lines()
        xml.add_lines(lines)

    def _begun(self, delay: int) -> XmlLines:
        """Returns what each reply begins with."""
        xml = XmlLines("scheduler_reply")
        xml.add_lines(self._head)
        xml.add("request_delay", f"{delay:.6f}")
        return xml

    def put_off(self, put: PutOff, language: Language = ENGLISH) -> bytes:
        """Returns the reply that puts a request off. It acknowledges nothing, so the client loses nothing."""
        xml = self._begun(put.delay)
        xml.add_message(language.text(put.message), put.priority)
        if put.is_down:
            xml.add("project_is_down", 1)
        return xml.written()

    def reply(
        self,
        request: ClientRequest,
        reply: Reply,
        hostid: int | None = None,
        notice: Text | str | None = None,
        recent: Recent | None = None,
        language: Language = ENGLISH,
    ) -> bytes:
        """Returns the reply to a request, with a notice for the volunteer. It has a hostid only for a client
        that did not send it: a client that has one takes any as a sign that it was copied, takes a new
        host_cpid and counts its requests anew.
        """
        xml = self._begun(reply.request_delay)
        xml.add("user_name", reply.user_name)
        if reply.team_name is not None:
            xml.add("team_name", reply.team_name)
        xml.add("user_total_credit", credit_number(reply.user_total_credit))
        xml.add("host_total_credit", credit_number(reply.host_total_credit))
        if recent is not None:
            xml.add("user_expavg_credit", f"{recent.user:.6f}")
            xml.add("host_expavg_credit", f"{recent.host:.6f}")
        if hostid is not None:
            xml.add("hostid", hostid)
        if notice is not None:
            xml.add_message(language.text(notice), "notice")
        acknowledged = frozenset(reply.result_ack)
        for what, names in (("result_ack", reply.result_ack), ("result_abort", reply.result_abort)):
            for name in names:
                with xml.inside(what):
                    xml.add("name", name)
        if request.has_messages:
            xml.add("message_ack", 1)
        if notice is None and any(report.name not in acknowledged for report in request.results):
            xml.add("next_rpc_delay", f"{AGAIN_SECONDS:.6f}")
        preferences = read_preferences(reply.preferences)
        if preferences is not None:
            preferences.add_to(xml, self.url, request.preferences_time)
        self._add_key(xml, request.code_sign_key, language)
        number = request.hostid if hostid is None else hostid
        buttons = self._buttons[language.tag, number > 0, reply.team_name is not None]
        xml.add_lines([buttons.replace("{number}", str(number))])
        if self._has_news():
            xml.add_lines(self._feeds)
        self._add_jobs(xml, request, reply.results, language)
        if request.work_req_seconds and not reply.results:
            message = NO_JOBS.get(reply.end_word, NO_JOBS["no_eligible_work"])
            xml.add_message(language.text(message), "low")
        return xml.written()

    def _add_key(self, xml: XmlLines, has: str, language: Language) -> None:
        """Adds the code signing key if the client has none. A client that has a key would take it for a
        change of the key.
        """
        if not has:
            self._once(
                xml, ("key",), lambda one: one.add("code_sign_key", "\n" + self.catalogue.code_sign_key)
            )
        elif has != self._key:
            xml.add_message(language.text(KEY_CHANGED), "notice")

    # ---- Jobs

    def _add_jobs(self, xml: XmlLines, request: ClientRequest, jobs: list[Job], language: Language) -> None:
        """Adds the jobs with all that they need. Each application, version and file is added once."""
        apps: dict[str, App] = {}
        versions: dict[tuple[str, str, int], Version] = {}
        files: Files = {}
        sent: list[tuple[Job, App, Work]] = []
        for job in jobs:
            try:
                sent.append((job, *self._needs(job, apps, versions, files)))
            except MissingFile as missing:
                # the client's next list does not have the job, so it is sent again
                log.error(
                    "job %s is not handed on: %s is not in the catalogue or not there", job.name, missing
                )
                lacks = gettext_lazy("The project lacks a file for the job %(name)s.", name=job.name)
                xml.add_message(language.text(lacks), "low")
        for app in apps.values():
            self._once(xml, ("app", app.name), partial(self._add_app, app))
        for needed in files.values():
            if needed.signature is None:  # an input file, of which there may be one for each workunit
                self._add_file(needed, xml)
            else:
                self._once(xml, ("file", needed.file.name), partial(self._add_file, needed))
        for version in versions.values():
            self._add_version(xml, version, request)
        workunits = set()
        for job, app, work in sent:
            if job.wu_name not in workunits:
                workunits.add(job.wu_name)
                self._add_workunit(xml, job, app, work, request)
        for job, app, _ in sent:
            self._add_output_files(xml, job, app)
        for job, app, _ in sent:
            self._add_result(xml, job, app)

    def _needs(
        self, job: Job, apps: dict[str, App], versions: dict[tuple[str, str, int], Version], files: Files
    ) -> tuple[App, Work]:
        """Returns the application of a job and its work. What the job needs is added to apps, versions and
        files.
        """
        key = job.app_name, job.platform, job.version_num
        app, version = self.catalogue.apps.get(job.app_name), self.catalogue.versions.get(key)
        if app is None or version is None:
            raise MissingFile(f"version {job.version_num} of {job.app_name} for {job.platform}")
        work = self.catalogue.work(app, plain_workunit(job.wu_name))
        inputs = [self.catalogue.folder.stored(file.name) for file in work.input_files]
        apps[app.name], versions[key] = app, version
        for item in version.files:
            files[item.file.name] = NeededFile(item.file, item.signature, item.is_executable)
        for file in inputs:
            files.setdefault(file.name, NeededFile(file, None, False))
        return app, work

    def _add_app(self, app: App, xml: XmlLines) -> None:
        """Adds an application."""
        with xml.inside("app"):
            xml.add("name", app.name)
            xml.add("user_friendly_name", app.title)

    def _add_file(self, needed: NeededFile, xml: XmlLines) -> None:
        """Adds a file that the client downloads."""
        file = needed.file
        with xml.inside("file_info"):
            xml.add("name", file.name)
            xml.add("url", f"{self.url}download/{file.name}")
            if needed.is_executable:
                xml.add("executable", 1)
            if needed.signature is not None:
                xml.add("file_signature", "\n" + needed.signature)
            xml.add("nbytes", file.size)
            xml.add("md5_cksum", file.md5)

    def _add_version(self, xml: XmlLines, version: Version, request: ClientRequest) -> None:
        """Adds a version. Its speed is the one that the client reported, so that the client and bsched
        estimate alike.
        """
        platform, name = split(version.platform)
        with xml.inside("app_version"):
            xml.add("app_name", version.app)
            xml.add("version_num", version.number)
            xml.add("platform", platform)
            if name:
                self._add_plan_class(xml, self.catalogue.plan_classes[name], request)
            else:
                xml.add("avg_ncpus", 1)
                xml.add("flops", request.p_fpops)
            key = "version", version.app, version.platform, version.number
            self._once(xml, key, partial(self._add_version_files, version), level=2)

    def _add_version_files(self, version: Version, xml: XmlLines) -> None:
        """Adds what a version says of its files."""
        for item in version.files:
            with xml.inside("file_ref"):
                xml.add("file_name", item.file.name)
                if item.open_name is not None:
                    xml.add("open_name", item.open_name)
                    xml.add("copy_file", 1)
                if item.is_main_program:
                    xml.add("main_program", 1)

    def _add_plan_class(self, xml: XmlLines, one: PlanClass, request: ClientRequest) -> None:
        """Adds what a plan class says about a version on the client's host."""
        xml.add("plan_class", one.name)
        xml.add("avg_ncpus", f"{one.ncpus(request):g}")
        xml.add("flops", f"{one.flops(request):.0f}")
        if one.command_line:
            xml.add("cmdline", one.command_line_for(request))
        if one.coproc is not None:
            with xml.inside("coproc"):
                xml.add("type", one.coproc)
                xml.add("count", f"{one.coproc_count:g}")

    def _add_workunit(self, xml: XmlLines, job: Job, app: App, work: Work, request: ClientRequest) -> None:
        """Adds a workunit. Its operations give bsched's estimate on this client, to the second."""
        operations = job.estimate * request.p_fpops
        with xml.inside("workunit"):
            xml.add("name", job.wu_name)
            xml.add("app_name", job.app_name)
            xml.add("rsc_fpops_est", operations)
            xml.add("rsc_fpops_bound", operations * app.bounds.factor)
            xml.add("rsc_memory_bound", app.bounds.memory)
            xml.add("rsc_disk_bound", app.bounds.disk)
            if work.command_line:
                xml.add("command_line", work.command_line)
            for file in work.input_files:
                self._add_reference(xml, file.name, file.open_name)

    def _add_reference(self, xml: XmlLines, name: str, open_name: str, is_optional: bool = False) -> None:
        """Adds a file of a workunit or a result, which the program opens under a name of its own."""
        with xml.inside("file_ref"):
            xml.add("file_name", name)
            xml.add("open_name", open_name)
            xml.add("copy_file", 1)
            if is_optional:
                xml.add("optional", 1)

    def _add_output_files(self, xml: XmlLines, job: Job, app: App) -> None:
        """Adds the files that the client uploads for a result, each with its token."""
        for place, file in enumerate(app.output_files):
            name = upload_name(job.name, place)
            with xml.inside("file_info"):
                xml.add("name", name)
                xml.add("generated_locally", 1)
                xml.add("upload_when_present", 1)
                xml.add("max_nbytes", file.max_nbytes)
                if self.tokens is None:
                    xml.add("url", f"{self.url}{UPLOAD_PATH}")
                else:
                    xml.add("url", f"{self.url}{UPLOAD_PATH}/{name}/{self.tokens.url_token(name)}")
                    xml.add("xml_signature", f"\n{self.tokens.token(name, file.max_nbytes)}\n")

    def _add_result(self, xml: XmlLines, job: Job, app: App) -> None:
        """Adds a result, which is a job."""
        platform, plan_class = split(job.platform)
        with xml.inside("result"):
            xml.add("name", job.name)
            xml.add("wu_name", job.wu_name)
            xml.add("platform", platform)
            if plan_class:
                xml.add("plan_class", plan_class)
            xml.add("version_num", job.version_num)
            xml.add("report_deadline", job.report_deadline)
            if app.is_reported_at_once:
                xml.add("report_immediately", 1)
            for place, file in enumerate(app.output_files):
                self._add_reference(xml, upload_name(job.name, place), file.open_name, file.is_optional)
