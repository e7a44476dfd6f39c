"""The settings of a project's bridge, `bridge.toml` (`bridge/README.md`, "Settings").

`read_settings` reads all of them. A program that needs only some reads them by `BridgeFile`, which looks at
no other member.
"""
import ipaddress
import re
from collections.abc import Callable, Iterable
from dataclasses import dataclass
from pathlib import Path
from urllib.parse import urlsplit

from .moments import DAY
from .news import FOLDER as NEWS
from .toml_entries import Entry, OperatorFile

PROJECTS = Path("/var/lib/bsched")  # of bsched-project
FOLDER, FILE_NAME = "bridge", "bridge.toml"  # in the folder of a project
FIELD_NAME = re.compile("[A-Za-z][A-Za-z0-9-]{0,63}")
ACCOUNT_SHARE = 10  # an account has this part of most_bytes at most, unless the settings say otherwise
LEAST_KEPT_DAYS = 7  # a client whose reply was lost reports a result again within this time
MOST_CONTACT = 200  # characters
RESULT_BYTES = 10**9  # most_result_bytes if the settings do not say it
MOST_HEAD = 8192  # bytes of an upload before those of its file
NO_UPLOADS = 16 * 1024 * 1024  # bytes of an upload that the web server passes on to a bridge that takes none
PICTURE_KINDS = {
    ".png": "image/png",
    ".jpg": "image/jpeg",
    ".jpeg": "image/jpeg",
    ".webp": "image/webp",
    ".svg": "image/svg+xml",
}
MOST_PICTURE = 2 * 1024 * 1024  # bytes
LISTED_FIELDS = {"x-forwarded-for", "forwarded"}  # clients write here; a proxy only adds


@dataclass(frozen=True, slots=True)
class Address:
    """A host name or address, and a port."""

    host: str
    port: int


@dataclass(frozen=True, slots=True)
class AccountSettings:
    """The settings for accounts that volunteers make themselves."""

    most_a_day: int  # new accounts in 24 hours
    most_from_address: int  # the same for one client address
    # the header field in which a proxy on this machine gives the client's address
    address_field: str | None
    is_name_told: bool  # the client gives the user's name; otherwise the name is made up
    terms: str | None  # the terms of use


@dataclass(frozen=True, slots=True)
class UploadSettings:
    """The settings of uploads."""

    folder: Path
    free_bytes: int  # of the disk, which uploads leave free
    most_result_bytes: int  # of the output files of one result
    most_bytes: int  # of all files in the folder
    most_account_bytes: int  # of the files of an account whose results are not reported
    keep_days: int  # how long the sweep keeps files of a result that is not the canonical one
    digest_seconds: int = 1800  # of the digest programs of one account in an hour


@dataclass(frozen=True, slots=True)
class HostRules:
    """The settings that are read again while the bridge runs."""

    most_hosts: int  # of one account
    barred: frozenset[str]  # keys of accounts
    holds_back: bool = True  # whether computers that report errors get fewer jobs
    vain_seconds: int = 2  # of a processor in a minute, for the calls in vain of one account


@dataclass(frozen=True, slots=True)
class Settings:
    """The settings that an operator chooses."""

    name: str  # of the project, as volunteers see it
    url: str  # the master URL, by which volunteers know the project
    listen: Address  # where the bridge listens
    scheduler: Address  # where bsched listens
    catalogue: Path
    state: Path  # the SQLite file of keys, counts and accounts
    operator_key: str | None  # bsched's; the bridge reads statements and imports accounts with it
    threads: int  # how many messages are handled at once
    answer_seconds: int  # how long the bridge waits for an answer of bsched
    retry_delay: int  # the seconds that a client must wait if bsched gave no answer
    welcome: str | None  # what the project's page says, in the operator's own words
    contact: str | None  # how to reach the operator: an address or a URL
    counts: Path | None  # a file with the counts of a copy of bsched's tables
    averages: Path | None  # a file with recent average credit
    host_rules: HostRules
    accounts: AccountSettings | None  # None if only the operator makes accounts
    archives: tuple[Path, ...] = ()  # earlier files of the project, whose credit is added
    uploads: UploadSettings | None = None  # None if no application has output files
    picture: Path | None = None  # of the project, for its page
    picture_text: str = ""  # the same for those who do not see it
    plots: Path | None = None  # the folder of plots that `bsched-tools report` makes
    health: Path | None = None  # a file with what `bsched-tools health` found last
    news: Path = Path(NEWS)  # the folder of the news, which need not be there
    project: str | None = None  # the name of the project of bsched-project, if the file is in its folder

    @property
    def path(self) -> str:
        """The path of the master URL; it begins and ends with a slash."""
        return urlsplit(self.url).path

    @property
    def is_without_addresses(self) -> bool:
        """Whether the limits of accounts see only a proxy: it ends TLS, and gives no address of a client."""
        return (
            self.accounts is not None and self.accounts.address_field is None and self.url.startswith("https")
        )


def address(file: Entry, member: str) -> Address:
    """Reads an address that a member gives as HOST:PORT."""
    host, colon, port = file.text(member).rpartition(":")
    if not colon or not host or not (port.isascii() and port.isdigit() and 1 <= int(port) <= 65535):
        file.fault(f"{member} is not HOST:PORT, with a port from 1 to 65535", member)
    return Address(host, int(port))


def project_name(file: Entry) -> str:
    """Reads the name of the project."""
    name = file.text("name")
    if not name.strip() or not name.isprintable():
        file.fault("name is empty, or has a character that can't be printed", "name")
    return name


def most_result_bytes(uploads: Entry) -> int:
    """Reads how many bytes the output files of one result may have."""
    return uploads.whole("most_result_bytes", 1, 10**18, RESULT_BYTES)


def master_url(file: Entry) -> str:
    """Reads the master URL. It must have the form that clients give it: a scheme, a host in small letters,
    and a slash at the end.
    """
    url = file.text("url")
    try:
        parts = urlsplit(url)
        host = parts.hostname if parts.port != 0 else None
    except ValueError:
        host = None
    if not host or parts.scheme not in ("http", "https") or parts.query or parts.fragment or parts.username:
        file.fault("url is not http://HOST/ or https://HOST/, with or without a port and a path", "url")
    if not url.endswith("/"):
        file.fault("url does not end with a slash, as clients will write it", "url")
    is_odd = not url.isascii() or any(one <= " " or one in "\"<>&'%" for one in url)
    if parts.netloc != parts.netloc.lower() or is_odd:
        file.fault("url has capital letters in its host, or a character that must be escaped", "url")
    return url


def is_private(url: str) -> bool:
    """Returns whether only the two ends can read what is sent to a URL: it is sent by TLS, or both ends are
    on this machine.
    """
    parts = urlsplit(url)
    if parts.scheme == "https" or parts.hostname == "localhost":
        return True
    try:
        return ipaddress.ip_address(parts.hostname or "").is_loopback
    except ValueError:
        return False


def read_accounts(file: OperatorFile, url: str, has_key: bool) -> AccountSettings | None:
    """Reads the table `[accounts]`, if there is one."""
    entry = file.table("accounts")
    if entry is None:
        return None
    if not has_key:
        entry.fault("[accounts] needs operator_key, with which accounts are imported")
    if not is_private(url):
        entry.fault("[accounts] needs a url with https, since passwords are sent to it")
    field = entry.text("address_field", "")
    if field and not FIELD_NAME.fullmatch(field):
        entry.fault("address_field is not the name of a field, such as X-Real-IP", "address_field")
    if field.lower() in LISTED_FIELDS:
        entry.fault(f"address_field: a client can write into {field}; use X-Real-IP", "address_field")
    names = entry.text("names", "made")
    if names not in ("told", "made"):
        entry.fault('names is not "told" or "made"', "names")
    accounts = AccountSettings(
        most_a_day=entry.whole("most_a_day", 1, 10_000),
        most_from_address=entry.whole("most_from_address", 1, 10_000, 3),
        address_field=field or None,
        is_name_told=names == "told",
        terms=entry.short_text("terms"),
    )
    entry.end()
    return accounts


def read_uploads(file: OperatorFile, has_key: bool) -> UploadSettings | None:
    """Reads the table `[uploads]`, if there is one."""
    entry = file.table("uploads")
    if entry is None:
        return None
    if not has_key:
        entry.fault("[uploads] needs operator_key, to ask bsched whose a result is")
    most_bytes = entry.whole("most_bytes", 1, 10**18)
    uploads = UploadSettings(
        folder=file.path.parent / entry.text("folder"),
        free_bytes=entry.whole("free_bytes", 0, 10**18, 5 * 10**9),
        most_result_bytes=most_result_bytes(entry),
        most_bytes=most_bytes,
        most_account_bytes=entry.whole(
            "most_account_bytes", 1, 10**18, max(1, most_bytes // ACCOUNT_SHARE)
        ),
        keep_days=entry.whole("keep_days", LEAST_KEPT_DAYS, 36_500, 30),
        digest_seconds=entry.whole("digest_seconds_an_hour", 1, 10**6, 1800),
    )
    if not uploads.folder.parent.is_dir():
        entry.fault(f"folder: {uploads.folder.parent} is not a folder", "folder")
    entry.end()
    return uploads


def read_host_rules(file: OperatorFile) -> HostRules:
    """Reads the members that are read again while the bridge runs."""
    return HostRules(
        file.whole("most_hosts", 1, 100_000, 20),
        file.words("barred"),
        file.flag("hold_back", True),
        file.whole("vain_seconds", 1, 1000, 2),
    )


def read_contact(file: Entry) -> str | None:
    """Reads how to reach the operator: one line that people read."""
    contact = file.text("contact", "").strip()
    if len(contact) > MOST_CONTACT or not contact.isprintable():
        file.fault(f"contact is not one line of at most {MOST_CONTACT} characters", "contact")
    return contact or None


def read_picture(file: Entry) -> tuple[Path | None, str]:
    """Reads the path of the project's picture, and what it shows."""
    text = file.text("picture_text", "").strip()
    if len(text) > MOST_CONTACT or not text.isprintable():
        file.fault(f"picture_text is not one line of at most {MOST_CONTACT} characters", "picture_text")
    if not file.has("picture"):
        return None, text
    path = file.existing("picture")
    if path.suffix.lower() not in PICTURE_KINDS:
        file.fault(f"picture: {path} does not end with {', '.join(PICTURE_KINDS)}", "picture")
    if not path.is_file() or path.stat().st_size > MOST_PICTURE:
        file.fault(f"picture: {path} is no file, or has more than {MOST_PICTURE:,} bytes", "picture")
    return path, text


def archive_paths(file: Entry) -> tuple[Path, ...]:
    """Reads the paths of the project's earlier files."""
    paths = []
    for name in file.taken("archives", list, "an array of texts in quotes", []):
        if not isinstance(name, str):
            file.fault("archives is not an array of texts in quotes", "archives")
        paths.append(file.path.parent / name)
        if not paths[-1].is_file():
            file.fault(f"archives: {paths[-1]} is not a file", "archives")
    return tuple(paths)


def project_of(path: Path) -> str | None:
    """Returns the name of the project of bsched-project whose bridge has a file of settings, or None."""
    folder = path.resolve().parent
    return folder.parent.name if folder == PROJECTS / folder.parent.name / FOLDER else None


def file_of(folder: Path) -> Path:
    """Returns the settings of the bridge in the folder of a project."""
    return folder / FOLDER / FILE_NAME


def read_settings(path: Path) -> Settings:
    """Reads the settings from a file. Paths in it are relative to its folder."""
    file = OperatorFile(path)
    url = master_url(file)
    key = file.word("operator_key") if file.has("operator_key") else None
    picture, picture_text = read_picture(file)
    settings = Settings(
        name=project_name(file),
        url=url,
        listen=address(file, "listen"),
        scheduler=address(file, "scheduler"),
        catalogue=file.existing("catalogue"),
        state=path.parent / file.text("state"),
        operator_key=key,
        threads=file.whole("threads", 1, 64, 8),
        answer_seconds=file.whole("answer_seconds", 1, 120, 15),
        retry_delay=file.whole("retry_delay", 1, DAY, 60),
        welcome=file.short_text("welcome"),
        contact=read_contact(file),
        counts=path.parent / file.text("counts") if file.has("counts") else None,
        averages=path.parent / file.text("averages") if file.has("averages") else None,
        host_rules=read_host_rules(file),
        accounts=read_accounts(file, url, key is not None),
        archives=archive_paths(file),
        uploads=read_uploads(file, key is not None),
        picture=picture,
        picture_text=picture_text,
        plots=path.parent / file.text("plots") if file.has("plots") else None,
        health=path.parent / file.text("health") if file.has("health") else None,
        news=path.parent / NEWS,
        project=project_of(path),
    )
    file.end()
    return settings


class BridgeFile:
    """Single settings of a bridge, each read when it is asked for."""

    def __init__(self, path: Path) -> None:
        self.file = OperatorFile(path)

    @property
    def name(self) -> str | None:
        """The name of the project for volunteers."""
        return project_name(self.file) if self.file.has("name") else None

    @property
    def url(self) -> str:
        """The master URL."""
        return master_url(self.file)

    @property
    def has_operator_key(self) -> bool:
        """Whether the bridge has the operator's key."""
        return self.file.has("operator_key")

    @property
    def catalogue(self) -> Path:
        """The catalogue."""
        return self.file.existing("catalogue")

    @property
    def state(self) -> Path | None:
        """The state file."""
        return self.file.path.parent / self.file.text("state") if self.file.has("state") else None

    @property
    def news(self) -> Path:
        """The folder of the news, which need not be there."""
        return self.file.path.parent / NEWS

    @property
    def archives(self) -> tuple[Path, ...]:
        """The earlier files of the project."""
        return archive_paths(self.file)

    @property
    def uploads(self) -> Path | None:
        """The folder of uploads, or None if the bridge takes none."""
        entry = self.file.table("uploads")
        return None if entry is None else self.file.path.parent / entry.text("folder")

    @property
    def most_result_bytes(self) -> int:
        """The bytes of the output files of one result; 0 if the bridge takes no uploads."""
        entry = self.file.table("uploads")
        return 0 if entry is None else most_result_bytes(entry)

    @property
    def most_upload(self) -> int:
        """The bytes of an upload that the web server passes on."""
        most = self.most_result_bytes
        return most_upload(most) if most else NO_UPLOADS


def most_upload(result_bytes: int) -> int:
    """Returns how many bytes the largest upload has, whatever the catalogue says later."""
    return MOST_HEAD + result_bytes


# what `bsched-bridge --print` prints, for scripts of the shell
PRINTED: dict[str, Callable[[BridgeFile], object]] = {
    "url": lambda file: file.url,
    "most_result_bytes": lambda file: file.most_result_bytes,
    "most_upload": lambda file: file.most_upload,
}


def printed(path: Path, names: Iterable[str]) -> list[str]:
    """Returns some settings of a bridge as texts."""
    file = BridgeFile(path)
    return [str(PRINTED[name](file)) for name in names]
