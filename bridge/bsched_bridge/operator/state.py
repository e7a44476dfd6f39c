"""What the bridge says of itself to `bsched-tools health`, as JSON: the catalogue, the digest programs, and
the room for uploads.

Only a program on this machine that has the operator's key gets it, since faults name files of the project.
"""
from bsched_files import operator_state
from bsched_files.operator_state import KEY_FIELD, PutOffReport, UploadRoom
from werkzeug.exceptions import ServiceUnavailable
from werkzeug.wrappers import Request, Response

from ..common.http_messages import NO_STORE, TEXT, answer
from ..common.limits import NoPlace, Places
from .key import OperatorKey
from .overview import Overview, Overviews

JSON = "application/json"


class OperatorState:
    """Answers the tools. One message at a time is answered."""

    def __init__(self, overviews: Overviews, operator_key: OperatorKey) -> None:
        self.overviews, self._key, self._places = overviews, operator_key, Places(1)

    def answer(self, message: Request) -> Response:
        """Returns the state."""
        try:
            with self._places.taken():
                fault = self._key.fault(message.headers.get(KEY_FIELD, ""))
                if fault:
                    return answer(TEXT, f"{fault}\n".encode(), NO_STORE, 403)
                return answer(JSON, self._state(self.overviews.read()).text().encode(), NO_STORE)
        except NoPlace:
            raise ServiceUnavailable from None

    def _state(self, overview: Overview) -> operator_state.OperatorState:
        """Returns the state."""
        fault = self.overviews.measurements.put_offs.latest_fault()
        return operator_state.OperatorState(
            overview.faults.edit,
            overview.faults.digests,
            None if fault is None else PutOffReport(int(fault[0]), fault[1]),
            self._uploads(overview),
        )

    def _uploads(self, overview: Overview) -> UploadRoom | None:
        """Returns the room for uploads, or None without `[uploads]`."""
        store = self.overviews.store
        if store is None or overview.uploads is None:
            return None
        return UploadRoom(
            used=overview.uploads.room.used,
            most_bytes=overview.uploads.room.most,
            disk_free=overview.disks["uploads"].free,
            free_bytes=store.settings.free_bytes,
            coming=store.room.jobs.coming_nbytes(int(overview.moment)),
        )
