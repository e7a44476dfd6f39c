"""Folders that root makes for a project, whose own user chose their names and may put links in the way."""
import os
import stat
from collections.abc import Iterable
from contextlib import ExitStack
from pathlib import Path

from bsched_files.faults import Fault

PARENT_MODE = 0o755


def make_below(bases: Iterable[Path], folder: Path, mode: int, owner: os.stat_result) -> None:
    """Makes a folder for an owner, and the ones above it, below one of some folders of root.

    Each folder is entered by a descriptor, and a symbolic link is not followed. So whoever owns one of them
    can't lead root elsewhere. A folder that exists stays as it is.
    """
    base = next((base for base in bases if folder != base and folder.is_relative_to(base)), None)
    if base is None or ".." in folder.parts:
        raise Fault(
            f"{folder}: root makes no folder there: make it by"
            f" `install -d -o {owner.st_uid} -g {owner.st_gid} -m {mode:o} {folder}`"
        )
    with ExitStack() as stack:
        base.mkdir(PARENT_MODE, parents=True, exist_ok=True)
        parent = entered(stack, base)
        *names, last = folder.relative_to(base).parts
        for name in names:
            parent = made_in(stack, parent, name, PARENT_MODE, None)
        made_in(stack, parent, last, mode, owner)


def check_writable(folder: Path, owner: os.stat_result) -> None:
    """Refuses a folder into which an owner may not write. The owner chose its name, and root writes there."""
    found = folder.stat()
    mode = stat.S_IMODE(found.st_mode)
    if owner.st_uid in (0, found.st_uid) or mode & stat.S_IWOTH:
        return
    if owner.st_gid != found.st_gid or not mode & stat.S_IWGRP:
        raise Fault(
            f"{folder}: root writes nothing there, since it is not the project's:"
            f" give it to its user by `chown {owner.st_uid}:{owner.st_gid} {folder}`, or name another folder"
        )


def made_in(stack: ExitStack, parent: int, name: str, mode: int, owner: os.stat_result | None) -> int:
    """Returns a descriptor of a folder within another one. If it is new, it has this mode, whatever the umask
    is, and this owner."""
    try:
        os.mkdir(name, 0o700, dir_fd=parent)
    except FileExistsError:
        return entered(stack, name, parent)
    folder = entered(stack, name, parent)
    if owner is not None:
        os.fchown(folder, owner.st_uid, owner.st_gid)
    os.fchmod(folder, mode)
    return folder


def entered(stack: ExitStack, name: Path | str, parent: int | None = None) -> int:
    """Returns a descriptor of a folder, which the stack closes. A link is refused."""
    folder = os.open(name, os.O_RDONLY | os.O_DIRECTORY | os.O_NOFOLLOW, dir_fd=parent)
    stack.callback(os.close, folder)
    return folder
