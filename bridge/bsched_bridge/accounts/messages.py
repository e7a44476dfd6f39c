"""What BOINC's client asks about accounts, and the answers in XML.

The client reads an answer only if the status is 200, so every message gets that status. The answer is an
account_out with a key, or an error with a number and a text. The client would take an empty answer, or error
0, for an account with an empty key.
"""
import logging
from collections.abc import Callable
from xml.etree.ElementTree import Element, SubElement, indent, tostring

from werkzeug.exceptions import HTTPException
from werkzeug.wrappers import Request, Response

from bsched_files.project_settings import Settings
from bsched_files.texts import is_word, xml_text

from ..catalogue.contents import Catalogue
from ..common.http_messages import NO_STORE, XML, answer, log_fault, query_of, refuse_browsers
from ..common.languages import ENGLISH, Language, language_of
from ..common.limits import is_loopback, network_of
from ..common.words import in_small_letters
from ..requests.plan_classes import split
from ..scheduler.messages import NoAnswer, Scheduler
from .actions import AccountFault, AccountPlaces, Accounts, Fault

# characters; the server gets only a hash, so only the Manager and the password page check this
LEAST_PASSWORD = 6

log = logging.getLogger(__name__)


def add(parent: Element, name: str, value: object) -> None:
    """Adds an element with a text."""
    SubElement(parent, name).text = xml_text(str(value))


def written(root: Element) -> bytes:
    """Returns the text of an element."""
    indent(root, "    ")
    # as a str: the encoder of ElementTree takes longer than all else
    text: str = tostring(root, encoding="unicode", short_empty_elements=False)
    return f"{text}\n".encode()


def client_of(message: Request, address_field: str | None) -> str:
    """Returns the client for whom the limits count a message.

    The address is the peer's. Only a proxy on this machine may name another one.
    """
    peer = message.remote_addr or ""
    if address_field is not None and is_loopback(peer):
        address = message.headers.get(address_field, "")
        return network_of(address.strip()) or network_of(peer)
    return network_of(peer)


def project_config(settings: Settings, catalogue: Catalogue) -> bytes:
    """Returns the answer to get_project_config.php, which a client asks for before it attaches.

    If only the operator makes accounts, the Manager is made to ask for a user name, because it accepts an
    account key there. It accepts no account key as an e-mail address.
    """
    root = Element("project_config")
    add(root, "name", settings.name)
    add(root, "master_url", settings.url)
    add(root, "web_rpc_url_base", settings.url)
    if settings.accounts is None:
        add(root, "uses_username", 1)
        add(root, "min_passwd_length", 1)
        add(root, "account_creation_disabled", 1)
        add(root, "client_account_creation_disabled", 1)
    else:
        add(root, "min_passwd_length", LEAST_PASSWORD)
        if settings.accounts.terms is not None:
            add(root, "terms_of_use", settings.accounts.terms)
    platforms = SubElement(root, "platforms")
    for platform in sorted({split(version.platform)[0] for version in catalogue.versions.values()}):
        add(SubElement(platforms, "platform"), "platform_name", platform)
    return written(root)


def account_out(authenticator: str) -> bytes:
    """Returns the XML of an account."""
    root = Element("account_out")
    add(root, "authenticator", authenticator)
    return written(root)


def account_error(fault: Fault, language: Language = ENGLISH) -> bytes:
    """Returns the XML that says why there is no account. The client acts on the number, and the Manager shows
    the text.
    """
    root = Element("error")
    add(root, "error_num", fault.number)
    add(root, "error_msg", language.text(fault.text))
    return written(root)


class AccountMessages:
    """Answers clients that ask about accounts. If volunteers make no accounts, clients can only ask about
    keys. Wrong keys are not counted then, since no setting says how a proxy gives the client's address.
    """

    def __init__(
        self, settings: Settings, accounts: Accounts | None, scheduler: Scheduler, places: AccountPlaces
    ) -> None:
        self.accounts, self.scheduler, self.places = accounts, scheduler, places
        self._address_field = settings.accounts.address_field if settings.accounts else None

    def create(self, message: Request) -> Response:
        """Answers create_account.php. It writes, so browsers are refused."""
        refuse_browsers(message)
        return self._answer(self._create, message)

    def look_up(self, message: Request) -> Response:
        """Answers lookup_account.php. Wrong passwords are counted, so browsers are refused."""
        refuse_browsers(message)
        return self._answer(self._find, message)

    def client(self, message: Request) -> str:
        """Returns the client for whom the limits count a message."""
        return client_of(message, self._address_field)

    def _answer(self, find: Callable[[Request, dict[str, str]], str], message: Request) -> Response:
        """Returns the answer with the key that is found. If the bridge itself fails, for example on a full
        disk, the client is asked to try again.
        """
        try:
            client = None if self.accounts is None else self.client(message)
            with self.places.taken(client):
                return answer(XML, account_out(find(message, query_of(message))), NO_STORE)
        except AccountFault as failure:
            fault = failure.fault
        except HTTPException:
            raise
        except Exception as error:
            log_fault(error)
            fault = Fault.NO_ANSWER
        return answer(XML, account_error(fault, language_of(message)), NO_STORE)

    def _create(self, message: Request, fields: dict[str, str]) -> str:
        """Makes an account and returns its key."""
        if self.accounts is None:
            raise AccountFault(Fault.NO_CREATION)
        email, secret = in_small_letters(fields.get("email_addr", "")), fields.get("passwd_hash", "").lower()
        has_consent = fields.get("consent_flag") == "1"
        return self.accounts.create(
            email, secret, fields.get("user_name", ""), has_consent, self.client(message)
        ).authenticator

    def _find(self, message: Request, fields: dict[str, str]) -> str:
        """Returns the key of an account. The client gives an address and a password, or the key itself, which
        a volunteer types as the user name.
        """
        name = fields.get("authenticator", "") or fields.get("email_addr", "")
        if self.accounts is None:
            return self._known_key(name)
        if is_word(name):
            with self.accounts.wrong_keys_counted(self.client(message)):
                return self._known_key(name)
        return self.accounts.look_up(
            in_small_letters(name), fields.get("passwd_hash", "").lower(), self.client(message)
        ).authenticator

    def _known_key(self, authenticator: str) -> str:
        """Returns the key if bsched knows it, and the account was not deleted."""
        if self.accounts is not None and self.accounts.is_deleted(authenticator):
            raise AccountFault(Fault.WRONG_KEY)
        try:
            if is_word(authenticator) and self.scheduler.has_account(authenticator):
                return authenticator
        except NoAnswer as failure:
            log.warning("no answer of bsched about a key: %s", failure)
            raise AccountFault(Fault.NO_ANSWER) from None
        raise AccountFault(Fault.WRONG_KEY)
