"""What a bridge that serves says of itself to `bsched-tools health`: whether the last edit of the catalogue
counts, which digest programs fail, why a report was put off, and the room for uploads. It is JSON, which who
has the operator's key gets at `operator/state` (docs/EVERY_DAY.md, "The board").
"""
from dataclasses import asdict, dataclass, fields
from typing import Any

from .faults import Fault
from .json_files import file_text, members_in

PATH = "operator/state"  # below the project's URL
KEY_FIELD = "X-Operator-Key"
FORMAT = 1


@dataclass(frozen=True, slots=True)
class PutOffReport:
    """Why the latest report was put off that does not just wait for its turn."""

    moment: int
    text: str


@dataclass(frozen=True, slots=True)
class UploadRoom:
    """The room for uploads, in bytes."""

    used: int  # by all files in the folder
    most_bytes: int  # that they may use
    disk_free: int  # of the folder's disk
    free_bytes: int  # of the disk, which uploads leave free
    coming: int  # that the jobs that are out may bring


@dataclass(frozen=True, slots=True)
class OperatorState:
    """What a bridge says of itself."""

    edit: str | None  # why the last edit of the catalogue does not count, or None
    digests: dict[str, str]  # why digest programs fail, by application
    put_off: PutOffReport | None
    uploads: UploadRoom | None  # None if the bridge takes none

    def text(self) -> str:
        """Returns the state as JSON."""
        return file_text(
            FORMAT,
            {
                "catalogue": {"edit": self.edit, "digests": self.digests},
                "put_off": None if self.put_off is None else asdict(self.put_off),
                "uploads": None if self.uploads is None else asdict(self.uploads),
            },
        )


def read_state(data: bytes) -> OperatorState:
    """Reads what `OperatorState.text` wrote. Raises Fault if it is none, or of a newer version."""
    members = members_in(data, "what the bridge says of itself", FORMAT)
    catalogue = _members(members, "catalogue")
    edit, digests = catalogue.get("edit"), _members(catalogue, "digests")
    if not (edit is None or isinstance(edit, str)) or not all(
        isinstance(one, str) for one in digests.values()
    ):
        raise Fault("what the bridge says of its catalogue can't be read")
    return OperatorState(edit, digests, _put_off(members.get("put_off")), _room(members.get("uploads")))


def _members(members: dict[str, Any], name: str) -> dict[str, Any]:
    """Returns the members of a member."""
    value = members.get(name)
    if not isinstance(value, dict):
        raise Fault(f"what the bridge says of itself has no {name}")
    return value


def _put_off(value: Any) -> PutOffReport | None:
    """Reads why a report was put off."""
    if value is None:
        return None
    if (
        not isinstance(value, dict)
        or type(value.get("moment")) is not int
        or not isinstance(value.get("text"), str)
    ):
        raise Fault("what the bridge says of reports can't be read")
    return PutOffReport(value["moment"], value["text"])


def _room(value: Any) -> UploadRoom | None:
    """Reads the room for uploads."""
    if value is None:
        return None
    names = [field.name for field in fields(UploadRoom)]
    if not isinstance(value, dict) or not all(type(value.get(name)) is int for name in names):
        raise Fault("what the bridge says of uploads can't be read")
    return UploadRoom(**{name: value[name] for name in names})
