"""With whose rights a command of the operator works, if root runs it.

A folder of another user can have links of that user to files of root. Root works there with the rights of
that user, who gains nothing by such a link.
"""
import os
from collections.abc import Iterator
from contextlib import AbstractContextManager, contextmanager
from pathlib import Path

ROOT = 0


def rights_of_owner(folder: Path) -> AbstractContextManager[None]:
    """Has the rights of a folder's owner for the block, if root runs the program."""
    status = folder.stat()
    return rights_of(status.st_uid, status.st_gid)


def own_rights() -> AbstractContextManager[None]:
    """Gives the block the rights of the user who runs the program, within a block of `rights_of`."""
    return rights_of(os.getuid(), os.getgid())


@contextmanager
def rights_of(user: int, group: int) -> Iterator[None]:
    """Has the rights of a user and a group for the block, if root runs the program. Another user keeps those
    that he has.
    """
    if os.getuid() != ROOT or os.geteuid() == user:
        yield
        return
    former = os.geteuid(), os.getegid(), os.getgroups()
    take_rights(user, group, [])
    try:
        yield
    finally:
        take_rights(*former)


def take_rights(user: int, group: int, groups: list[int]) -> None:
    """Has these rights from now on. Only root can change them, so the process is root for a moment."""
    os.seteuid(ROOT)
    os.setgroups(groups)
    os.setegid(group)
    os.seteuid(user)
