"""The account pages for people: an account with its hosts, its name and password, and the terms.

There are no cookies. Each form sends the key or the password that it needs, so another web page can't act
with its visitors' accounts. Nor can it try passwords by its visitors: what browsers say comes from another
site is refused.
"""
import time
from dataclasses import dataclass, field, replace
from typing import Any

from werkzeug.exceptions import BadRequest
from werkzeug.wrappers import Request, Response

from bsched_files.project_settings import Settings

from ..accounts.actions import AccountFault, AccountPlaces, Accounts, Fault, is_email
from ..accounts.messages import LEAST_PASSWORD, client_of
from ..accounts.teams import TeamFault, Teams
from ..common.http_messages import form_of, query_of, refuse_other_sites
from ..common.languages import Language, Text, gettext_lazy, gettext_noop, language_of
from ..common.texts import RESULT_WORDS
from ..common.words import in_small_letters
from ..people.directory import Directory
from ..people.members import Member
from ..people.names import clean_name
from ..people.passwords import client_hash
from ..requests.preferences import PreferenceFault, read_preferences, typed
from .statements import MOST_HOSTS, Statements
from .templates import Templates

MOST_PASSWORD = 1000  # characters


@dataclass
class Form:
    """The fields that a form sent, and what is wrong with each of them, in the language of its page."""

    language: Language
    fields: dict[str, str] = field(default_factory=dict)
    faults: dict[str, Text | str] = field(default_factory=dict)

    def text(self, name: str) -> str:
        """Returns what was typed into a field, without leading and trailing blanks."""
        return self.fields.get(name, "").strip()

    def without(self, name: str) -> "Form":
        """Returns the form without the text of a field."""
        fields = {key: text for key, text in self.fields.items() if key != name}
        return Form(self.language, fields, self.faults)

    def emptied(self, **faults: Text | str) -> "Form":
        """Returns an empty form on a page of the same language."""
        return Form(self.language, faults=faults)


class AccountPages:
    """Answers people who ask about accounts."""

    def __init__(
        self,
        settings: Settings,
        templates: Templates,
        accounts: Accounts,
        statements: Statements,
        places: AccountPlaces,
        teams: Teams,
        directory: Directory,
    ) -> None:
        self.settings, self.templates, self.accounts = settings, templates, accounts
        self.statements, self.places, self.teams, self.directory = statements, places, teams, directory
        self._field = settings.accounts.address_field if settings.accounts else None
        self._is_name_told = settings.accounts is not None and settings.accounts.is_name_told

    def _page(self, template: str, sent: Form, /, **values: Any) -> Response:
        """Returns a page that may show a key, so browsers don't keep it."""
        return self.templates.page(template, language=sent.language, is_kept=False, sent=sent, **values)

    def _sent(self, message: Request) -> tuple[Form, str]:
        """Returns a form that this page sent, and the client who counts for it."""
        refuse_other_sites(message, self.settings.url)
        return Form(language_of(message), form_of(message)), client_of(message, self._field)

    # ---- An account

    def finish(self, message: Request) -> Response:
        """Answers account_finish.php, which the Manager opens after it has made an account. The form of the
        page posts back to it, with the key.
        """
        refuse_other_sites(message, self.settings.url)
        if message.method == "POST":
            return self._changed(message)
        key, client = query_of(message).get("auth", ""), client_of(message, self._field)
        sent = Form(language_of(message))
        try:
            with self.places.taken(client):
                return self._account(self.accounts.of_owner(key, client), sent)
        except AccountFault as fault:
            status = 404 if fault.fault is Fault.WRONG_KEY else 200
            return self._entrance(sent.emptied(key=fault.fault.text), status)

    def account(self, message: Request) -> Response:
        """Shows an account, found by its key or by address and password. Without them it asks for them."""
        if message.method != "POST":
            return self._entrance(Form(language_of(message)))
        sent, client = self._sent(message)
        try:
            with self.places.taken(client):
                return self._account(self._member(sent, client), sent.emptied())
        except AccountFault as fault:
            sent.faults["key" if "key" in sent.fields else "password"] = fault.fault.text
            return self._entrance(sent)

    def _member(self, sent: Form, client: str) -> Member:
        """Returns the account whose key, or address and password, a form has."""
        if "key" in sent.fields:
            return self.accounts.of_owner(sent.text("key"), client)
        email = in_small_letters(sent.text("email"))
        return self.accounts.look_up(email, client_hash(sent.fields.get("password", ""), email), client)

    def _entrance(self, sent: Form, status: int = 200) -> Response:
        """Returns the page that asks for a key, or for an address and a password. It shows no key again."""
        return self._page("entrance.html", sent.without("key"), http_status=status)

    def _changed(self, message: Request) -> Response:
        """Changes the name of an account, and whether statistics may show it. The owner sends the key."""
        sent, client = self._sent(message)
        name, is_exported = clean_name(sent.text("name")), sent.text("is_exported") == "1"
        is_anonymous = sent.text("is_anonymous") == "1"
        try:
            with self.places.taken(client):
                member = self.accounts.of_owner(sent.text("key"), client)
                if not name:
                    sent.faults["name"] = gettext_noop("Give a name.")
                    return self._account(member, sent)
                self.accounts.members.change(member, name, is_exported, is_anonymous)
                member = replace(member, name=name, is_exported=is_exported, is_anonymous=is_anonymous)
                return self._account(member, sent.emptied(), gettext_noop("Your changes are saved."))
        except AccountFault as fault:
            return self._entrance(sent.emptied(key=fault.fault.text))

    def team(self, message: Request) -> Response:
        """Lets a user make, join or leave a team, or remove a member from it. The owner sends the key."""
        sent, client = self._sent(message)
        try:
            with self.places.taken(client):
                member = self.accounts.of_owner(sent.text("key"), client)
                try:
                    done = self._change_team(member, sent)
                except TeamFault as fault:
                    sent.faults["member" if sent.text("action") == "remove" else "team"] = str(fault)
                    return self._account(member, sent)
                return self._account(self.accounts.of_owner(sent.text("key"), client), sent.emptied(), done)
        except AccountFault as fault:
            return self._entrance(sent.emptied(key=fault.fault.text))

    def change_preferences(self, message: Request) -> Response:
        """Stores what a user wants of the clients, or that it is sent no more. The owner sends the key."""
        sent, client = self._sent(message)
        is_removed, is_only_idle = sent.text("action") == "remove", sent.text("is_only_idle") == "1"
        try:
            with self.places.taken(client):
                member = self.accounts.of_owner(sent.text("key"), client)
                try:
                    words = sent.text("share"), sent.text("processors"), is_only_idle, int(time.time())
                    wants = None if is_removed else typed(*words, sent.language)
                except PreferenceFault as fault:
                    sent.faults[fault.field] = str(fault)
                    return self._account(member, sent)
                text = None if wants is None else wants.written()
                self.accounts.members.change_preferences(member, text)
                done = gettext_noop("Your computers get them at their next calls.")
                if is_removed:
                    done = gettext_noop("They are sent no more.")
                return self._account(replace(member, preferences=text), sent.emptied(), done)
        except AccountFault as fault:
            return self._entrance(sent.emptied(key=fault.fault.text))

    def _change_team(self, member: Member, sent: Form) -> str:
        """Does what a form about a team says, and returns what was done."""
        action, text = sent.text("action"), sent.text("team")
        if action == "make":
            self.teams.make(member, text, int(time.time()))
            return gettext_noop("Your team is made.")
        if action == "join":
            self.teams.join(member, text)
            return gettext_noop("You are in the team.")
        if action == "leave":
            self.teams.leave(member)
            return gettext_noop("You left the team.")
        if action == "remove":
            self.teams.remove(member, sent.text("member"))
            return gettext_noop("The member is removed.")
        raise BadRequest

    def _account(self, member: Member, sent: Form, done: str = "") -> Response:
        """Returns the page of an account."""
        user = self.directory.user(member.id)
        return self._page(
            "account.html",
            sent,
            member=member,
            place=None if user is None else self.directory.place(user),
            of=self.directory.count_users(),
            status=self.statements.of_account(member.authenticator),
            done=done,
            team=self.teams.team(member.team),
            wants=read_preferences(member.preferences),
            most_hosts=MOST_HOSTS,
            result_words=RESULT_WORDS,
        )

    # ---- The end of an account

    def delete(self, message: Request) -> Response:
        """Answers delete_account.php: whoever has the address and the password deletes the account."""
        if message.method != "POST":
            return self._deletion(Form(language_of(message)))
        sent, client = self._sent(message)
        email = in_small_letters(sent.text("email"))
        if sent.text("is_sure") != "1":
            sent.faults["is_sure"] = gettext_noop("Tick this, to delete the account.")
            return self._deletion(sent)
        try:
            with self.places.taken(client):
                self.accounts.delete(email, client_hash(sent.fields.get("password", ""), email), client)
        except AccountFault as fault:
            sent.faults["password"] = fault.fault.text
            return self._deletion(sent)
        return self._page(
            "finished.html",
            sent,
            heading=gettext_noop("the account is deleted"),
            done=gettext_noop("Your account is deleted."),
            text=gettext_noop("Remove the project on each of your computers: it gets no more work there."),
        )

    def _deletion(self, sent: Form) -> Response:
        """Returns the page that asks for the password before it deletes an account."""
        return self._page("deletion.html", sent, is_name_told=self._is_name_told)

    # ---- A password

    def password(self, message: Request) -> Response:
        """Answers get_passwd.php: whoever has the key sets the address and the password."""
        if message.method != "POST":
            return self._password(Form(language_of(message)))
        sent, client = self._sent(message)
        email, password = in_small_letters(sent.text("email")), sent.fields.get("password", "")
        if not is_email(email):
            sent.faults["email"] = Fault.NO_ADDRESS.text
        if len(password) < LEAST_PASSWORD:
            sent.faults["password"] = gettext_lazy(
                "The password has fewer than %(count)s characters.", count=LEAST_PASSWORD
            )
        if len(password) > MOST_PASSWORD:
            sent.faults["password"] = gettext_lazy(
                "The password has more than %(count)s characters.", count=MOST_PASSWORD
            )
        if sent.faults:
            return self._password(sent)
        try:
            with self.places.taken(client):
                self.accounts.set_password(sent.text("key"), email, client_hash(password, email), client)
        except AccountFault as fault:
            sent.faults["email" if fault.fault is Fault.TAKEN else "key"] = fault.fault.text
            return self._password(sent)
        return self._page(
            "finished.html",
            sent,
            heading=gettext_noop("your password"),
            done=gettext_noop("Your password is changed."),
            text=gettext_noop("Computers that have the project continue as before."),
        )

    def _password(self, sent: Form) -> Response:
        """Returns the page that asks for a new password."""
        return self._page("password.html", sent, least_password=LEAST_PASSWORD)

    def terms(self, message: Request) -> Response:
        """Returns the page with the terms of use, as the operator wrote them."""
        language = language_of(message)
        terms = self.settings.accounts.terms if self.settings.accounts else None
        none = language.gettext("There are none.")
        return self.templates.page("terms.html", language=language, terms=terms or none)
