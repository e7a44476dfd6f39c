"""Whose an upload is, and whether it may still come.

A token is made from the secret, the name of a file and its limit alone, so it never changes. It ends with its
job: once bsched has the report of the job, or its account is barred or deleted, its files are refused for
good. A job that is late stays open, since bsched takes a late report, too.
"""
import time
from collections.abc import Callable
from dataclasses import dataclass

from ..catalogue.output_files import result_of
from ..people.hosts import Key
from .handed_out import HandedOut


LOOK_SECONDS = 60.0  # between two looks whether jobs of an older bridge are still out


class Ended(Exception):
    """Raised for a file whose job has ended. The text says why."""


@dataclass(frozen=True, slots=True)
class Owner:
    """The host that may upload a file, and how many bytes all files of the file's job may have."""

    result: str
    key: Key
    most_nbytes: int

    @property
    def is_known(self) -> bool:
        """Whether the bridge knows the job."""
        return self.key != NOBODY


# has the files of jobs that the bridge does not know, for example after the folder of uploads was restored
NOBODY = Key("", "")


class UploadOwners:
    """The owners of the files of jobs that went out."""

    def __init__(self, jobs: HandedOut, is_barred: Callable[[str], bool]) -> None:
        self.jobs, self.is_barred = jobs, is_barred
        self._is_open, self._looked_at = True, -LOOK_SECONDS

    def takes_plain_urls(self) -> bool:
        """Returns whether a URL without a token is still one of a job that is out. A bridge gives out no such
        URL, so once the last of these jobs has ended, there are none.
        """
        now = time.monotonic()
        if self._is_open and now >= self._looked_at + LOOK_SECONDS:
            self._is_open, self._looked_at = self.jobs.has_without_url(), now
        return self._is_open

    def of(self, name: str) -> Owner:
        """Returns the owner of a file with a valid token. Raises Ended."""
        result = result_of(name)
        job = self.jobs.job(result)
        if job is None:
            return Owner(result, NOBODY, 0)
        if job.is_stored or job.is_ended:
            raise Ended(f"{result} is reported")
        if self.is_barred(job.key.authenticator):
            raise Ended(f"the account that has {result} is barred or deleted")
        return Owner(result, job.key, job.most_nbytes)
