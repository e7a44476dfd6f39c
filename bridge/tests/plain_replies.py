"""The replies of the bridge as ElementTree writes them. Those of client_replies must have the same bytes."""
import json
from decimal import Decimal
from xml.etree.ElementTree import Element, SubElement

from bsched_bridge.accounts.messages import add, written
from bsched_bridge.catalogue.contents import App, Catalogue, MissingFile, Version, Work
from bsched_bridge.catalogue.output_files import upload_name
from bsched_bridge.common.languages import ENGLISH, Language
from bsched_bridge.exchange.answers import PutOff
from bsched_bridge.exchange.client_replies import (
    ACCOUNT,
    HELP,
    KEY_CHANGED,
    NO_JOBS,
    SCHEDULER_VERSION,
    STATUS,
    TASKS,
    TEAM,
    Button,
    Files,
    NeededFile,
)
from bsched_bridge.people.recent_credit import Recent
from bsched_bridge.requests.client_requests import ClientRequest
from bsched_bridge.requests.plan_classes import PlanClass, split
from bsched_bridge.scheduler.messages import Job, Reply
from bsched_bridge.uploads.messages import PATH as UPLOAD_PATH
from bsched_bridge.uploads.tokens import UploadTokens
from bsched_files.texts import MILLICREDITS, xml_text


def add_message(parent: Element, text: str, priority: str) -> None:
    """Adds a message, which the client shows to the volunteer."""
    message = SubElement(parent, "message", {"priority": priority})
    message.text = xml_text(text)


class PlainReplies:
    """Writes the replies of a project."""

    def __init__(
        self,
        catalogue: Catalogue,
        name: str,
        url: str,
        tokens: UploadTokens | None = None,
        has_accounts: bool = False,
    ) -> None:
        self.catalogue, self.name, self.url, self.tokens = catalogue, name, url, tokens
        self.has_accounts = has_accounts

    def _begun(self, delay: int) -> Element:
        """Returns what each reply begins with."""
        root = Element("scheduler_reply")
        add(root, "scheduler_version", SCHEDULER_VERSION)
        add(root, "master_url", self.url)
        add(root, "project_name", self.name)
        add(root, "request_delay", f"{delay:.6f}")
        return root

    def put_off(self, put: PutOff) -> bytes:
        """Returns the reply that puts a request off. It acknowledges nothing, so the client loses nothing."""
        root = self._begun(put.delay)
        add_message(root, str(put.message), put.priority)
        if put.is_down:
            add(root, "project_is_down", 1)
        return written(root)

    def reply(
        self,
        request: ClientRequest,
        reply: Reply,
        hostid: int | None = None,
        notice: str | None = None,
        recent: Recent | None = None,
        language: Language = ENGLISH,
    ) -> bytes:
        """Returns the reply to a request, with a notice for the volunteer. It has a hostid only for a client
        that did not send it: a client that has one takes any as a sign that it was copied, takes a new
        host_cpid and counts its requests anew.
        """
        assert language is ENGLISH
        root = self._begun(reply.request_delay)
        add(root, "user_name", reply.user_name)
        if reply.team_name is not None:
            add(root, "team_name", reply.team_name)
        add(root, "user_total_credit", f"{Decimal(reply.user_total_credit) / MILLICREDITS:.3f}")
        add(root, "host_total_credit", f"{Decimal(reply.host_total_credit) / MILLICREDITS:.3f}")
        if recent is not None:
            add(root, "user_expavg_credit", f"{recent.user:.6f}")
            add(root, "host_expavg_credit", f"{recent.host:.6f}")
        if hostid is not None:
            add(root, "hostid", hostid)
        if notice is not None:
            add_message(root, notice, "notice")
        for what, names in (("result_ack", reply.result_ack), ("result_abort", reply.result_abort)):
            for name in names:
                add(SubElement(root, what), "name", name)
        if request.has_messages:
            add(root, "message_ack", 1)
        if reply.preferences is not None:
            self._add_preferences(root, json.loads(reply.preferences), request.preferences_time)
        self._add_key(root, request.code_sign_key)
        self._add_buttons(root, request.hostid if hostid is None else hostid, reply.team_name)
        self._add_jobs(root, request, reply.results)
        if request.work_req_seconds and not reply.results:
            add_message(root, NO_JOBS.get(reply.end_word, NO_JOBS["no_eligible_work"]), "low")
        return written(root)

    def _add_preferences(self, root: Element, wants: dict[str, int], client_time: int | None) -> None:
        """Adds what the user wants of the client. What counts for all projects must be newer than its own."""
        add(SubElement(root, "project_preferences"), "resource_share", wants["share"])
        if client_time is not None and wants["changed_at"] > client_time:
            element = SubElement(root, "global_preferences")
            add(element, "source_project", self.url)
            add(element, "mod_time", wants["changed_at"])
            add(element, "run_if_user_active", 0 if wants["is_only_idle"] else 1)
            add(element, "max_ncpus_pct", wants["processors"])

    def _add_key(self, root: Element, has: str) -> None:
        """Adds the code signing key if the client has none. A client that has a key would take it for a
        change of the key.
        """
        if not has:
            add(root, "code_sign_key", "\n" + self.catalogue.code_sign_key)
        elif has != "".join(self.catalogue.code_sign_key.split()):
            add_message(root, KEY_CHANGED, "notice")

    def _add_buttons(self, root: Element, number: int, team: str | None) -> None:
        """Adds the pages for which the Manager shows buttons."""
        element = SubElement(root, "gui_urls")
        if self.has_accounts:
            self._add_button(element, ACCOUNT, "account")
        if number:
            self._add_button(element, TASKS, f"computer/{number}")
        if number and team is not None and self.has_accounts:
            self._add_button(element, TEAM, f"computer/{number}/team")
        self._add_button(element, STATUS, "status")
        self._add_button(element, HELP, "help")

    def _add_button(self, parent: Element, button: Button, path: str) -> None:
        """Adds a button for a page."""
        element = SubElement(parent, "gui_url")
        add(element, "name", button.name)
        add(element, "description", button.description)
        add(element, "url", f"{self.url}{path}")

    # ---- Jobs

    def _add_jobs(self, root: Element, request: ClientRequest, jobs: list[Job]) -> None:
        """Adds the jobs with all that they need. Each application, version and file is added once."""
        apps: dict[str, App] = {}
        versions: dict[tuple[str, str, int], Version] = {}
        files: Files = {}
        sent: list[tuple[Job, App, Work]] = []
        for job in jobs:
            try:
                sent.append((job, *self._needs(job, apps, versions, files)))
            except MissingFile:
                add_message(root, f"The project lacks a file for the job {job.name}.", "low")
        for app in apps.values():
            self._add_app(root, app)
        for needed in files.values():
            self._add_file(root, needed)
        for version in versions.values():
            self._add_version(root, version, request)
        workunits = set()
        for job, app, work in sent:
            if job.wu_name not in workunits:
                workunits.add(job.wu_name)
                self._add_workunit(root, job, app, work, request)
        for job, app, _ in sent:
            self._add_output_files(root, job, app)
        for job, app, _ in sent:
            self._add_result(root, job, app)

    def _needs(
        self, job: Job, apps: dict[str, App], versions: dict[tuple[str, str, int], Version], files: Files
    ) -> tuple[App, Work]:
        """Returns the application of a job and its work. What the job needs is added to apps, versions and
        files.
        """
        key = job.app_name, job.platform, job.version_num
        app, version = self.catalogue.apps.get(job.app_name), self.catalogue.versions.get(key)
        if app is None or version is None:
            raise MissingFile(f"version {job.version_num} of {job.app_name} for {job.platform}")
        work = self.catalogue.work(app, job.wu_name)
        inputs = [self.catalogue.folder.stored(file.name) for file in work.input_files]
        apps[app.name], versions[key] = app, version
        for item in version.files:
            files[item.file.name] = NeededFile(item.file, item.signature, item.is_executable)
        for file in inputs:
            files.setdefault(file.name, NeededFile(file, None, False))
        return app, work

    def _add_app(self, root: Element, app: App) -> None:
        """Adds an application."""
        element = SubElement(root, "app")
        add(element, "name", app.name)
        add(element, "user_friendly_name", app.title)

    def _add_file(self, root: Element, needed: NeededFile) -> None:
        """Adds a file that the client downloads."""
        element, file = SubElement(root, "file_info"), needed.file
        add(element, "name", file.name)
        add(element, "url", f"{self.url}download/{file.name}")
        if needed.is_executable:
            add(element, "executable", 1)
        if needed.signature is not None:
            add(element, "file_signature", "\n" + needed.signature)
        add(element, "nbytes", file.size)
        add(element, "md5_cksum", file.md5)

    def _add_version(self, root: Element, version: Version, request: ClientRequest) -> None:
        """Adds a version. Its speed is the one that the client reported, so that the client and bsched
        estimate alike.
        """
        element = SubElement(root, "app_version")
        platform, name = split(version.platform)
        add(element, "app_name", version.app)
        add(element, "version_num", version.number)
        add(element, "platform", platform)
        if name:
            self._add_plan_class(element, self.catalogue.plan_classes[name], request)
        else:
            add(element, "avg_ncpus", 1)
            add(element, "flops", request.p_fpops)
        for item in version.files:
            reference = SubElement(element, "file_ref")
            add(reference, "file_name", item.file.name)
            if item.open_name is not None:
                add(reference, "open_name", item.open_name)
                add(reference, "copy_file", 1)
            if item.is_main_program:
                add(reference, "main_program", 1)

    def _add_plan_class(self, element: Element, one: PlanClass, request: ClientRequest) -> None:
        """Adds what a plan class says about a version on the client's host."""
        add(element, "plan_class", one.name)
        add(element, "avg_ncpus", f"{one.ncpus(request):g}")
        add(element, "flops", f"{one.flops(request):.0f}")
        if one.command_line:
            add(element, "cmdline", one.command_line_for(request))
        if one.coproc is not None:
            coproc = SubElement(element, "coproc")
            add(coproc, "type", one.coproc)
            add(coproc, "count", f"{one.coproc_count:g}")

    def _add_workunit(self, root: Element, job: Job, app: App, work: Work, request: ClientRequest) -> None:
        """Adds a workunit. Its operations give bsched's estimate on this client, to the second."""
        element = SubElement(root, "workunit")
        operations = job.estimate * request.p_fpops
        add(element, "name", job.wu_name)
        add(element, "app_name", job.app_name)
        add(element, "rsc_fpops_est", operations)
        add(element, "rsc_fpops_bound", operations * app.bounds.factor)
        add(element, "rsc_memory_bound", app.bounds.memory)
        add(element, "rsc_disk_bound", app.bounds.disk)
        if work.command_line:
            add(element, "command_line", work.command_line)
        for file in work.input_files:
            reference = SubElement(element, "file_ref")
            add(reference, "file_name", file.name)
            add(reference, "open_name", file.open_name)
            add(reference, "copy_file", 1)

    def _add_output_files(self, root: Element, job: Job, app: App) -> None:
        """Adds the files that the client uploads for a result, each with its token."""
        for place, file in enumerate(app.output_files):
            element, name = SubElement(root, "file_info"), upload_name(job.name, place)
            add(element, "name", name)
            add(element, "generated_locally", 1)
            add(element, "upload_when_present", 1)
            add(element, "max_nbytes", file.max_nbytes)
            url_token = "" if self.tokens is None else f"/{name}/{self.tokens.url_token(name)}"
            add(element, "url", f"{self.url}{UPLOAD_PATH}{url_token}")
            if self.tokens is not None:
                add(element, "xml_signature", f"\n{self.tokens.token(name, file.max_nbytes)}\n")

    def _add_result(self, root: Element, job: Job, app: App) -> None:
        """Adds a result, which is a job."""
        element = SubElement(root, "result")
        add(element, "name", job.name)
        add(element, "wu_name", job.wu_name)
        platform, plan_class = split(job.platform)
        add(element, "platform", platform)
        if plan_class:
            add(element, "plan_class", plan_class)
        add(element, "version_num", job.version_num)
        add(element, "report_deadline", job.report_deadline)
        if app.is_reported_at_once:
            add(element, "report_immediately", 1)
        for place, file in enumerate(app.output_files):
            reference = SubElement(element, "file_ref")
            add(reference, "file_name", upload_name(job.name, place))
            add(reference, "open_name", file.open_name)
            add(reference, "copy_file", 1)
            if file.is_optional:
                add(reference, "optional", 1)
