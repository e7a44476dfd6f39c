"""Digest programs: what is compared of the files of a result, if equal files are too much to ask for.

A digest program belongs to the project. It gets the paths of the files of one result, and prints at most
1,024 bytes, which is the output that bsched compares. Status 0 says that this is the output, and status 65
that the files are bad: then what it prints is the reason. Any other end is a failure of the program: many
runtimes end with status 1 after a fault of their own, for example if they have no memory.

The files come from strangers, and the program may have faults. So bubblewrap runs it in a system of its own:
with /usr, the program and the files read-only, an empty folder, no network, no environment and no other
process. Its memory, its processes and its time are limited. If the unit has no memory left, the kernel ends
such a program, and not the bridge.
"""
import json
import subprocess
import tempfile
from collections.abc import Iterable, Iterator
from dataclasses import dataclass
from pathlib import Path
from typing import IO

from bsched_files.catalogue import OutputFile
from bsched_files.texts import MOST_OUTPUT, NO_XML


BWRAP, PRLIMIT, CHOOM = "/usr/bin/bwrap", "/usr/bin/prlimit", "/usr/bin/choom"
MEMORY_BYTES = 512 * 1024**2  # of each process of a program
# With bubblewrap's own one. They are counted within the system of the program, if root did not start it.
MOST_PROCESSES = 16
FOLDER_BYTES = 64 * 1024**2  # of its folder, and of what it prints
MOST_FILES = 64  # that it has open
FIRST_TO_END = 1000  # the score of a process that the kernel ends before all others if memory runs out
BAD_FILES = 65  # the status by which a program says that the files are bad (EX_DATAERR)
TRUE = Path("/usr/bin/true")  # a program that shows whether bubblewrap works
END_SECONDS = 10
MOST_SAID = 1000  # bytes of what bubblewrap says if it can't run
LARGE_BYTES = 20 * 1024**2  # of the files that are tried as large ones
NO_BWRAP = "digest programs need Debian's bubblewrap: install it"
NOT_ALLOWED = "bubblewrap can't run here; allow it to the unit (the bridge's README.md, 'Digest programs')"
SANDBOX = (
    "--unshare-all",
    "--unshare-user",
    "--uid",
    "65534",
    "--gid",
    "65534",
    "--cap-drop",
    "ALL",
    "--die-with-parent",
    "--new-session",
    "--clearenv",
    "--ro-bind",
    "/usr",
    "/usr",
    "--symlink",
    "usr/bin",
    "/bin",
    "--symlink",
    "usr/sbin",
    "/sbin",
    "--symlink",
    "usr/lib",
    "/lib",
    "--symlink",
    "usr/lib64",
    "/lib64",
    "--ro-bind-try",
    "/etc/alternatives",
    "/etc/alternatives",
    "--dev-bind",
    "/dev/null",
    "/dev/null",
    "--dev-bind",
    "/dev/urandom",
    "/dev/urandom",
    "--size",
    str(FOLDER_BYTES),
    "--tmpfs",
    "/work",
    "--chdir",
    "/work",
)


class DigestFault(Exception):
    """Raised if a digest program fails, so nothing is known about the files. The text says how."""


class CannotRun(DigestFault):
    """Raised if no digest program can run here, whatever its files are. The text says why."""


class BadFiles(Exception):
    """Raised if a digest program says that the files are bad. The text is what it said."""


@dataclass(frozen=True, slots=True)
class DigestProgram:
    """The digest program of an application."""

    path: Path
    seconds: int  # that it may take
    example: Path | None  # a folder with files of a result, under their open_names


def digest_of(program: DigestProgram, files: Iterable[tuple[str, Path]]) -> str:
    """Returns what a digest program prints for some files, each with its open_name. Raises BadFiles,
    DigestFault, or CannotRun if bubblewrap is at fault.
    """
    try:
        return _printed(program, list(files))
    except NotStarted as fault:
        why = why_not_started()
        if why is not None:
            raise CannotRun(why) from None
        raise DigestFault(f"{fault}: see whether it is executable, and try it by hand") from None


def why_not_started() -> str | None:
    """Returns why bubblewrap can't run the simplest program, or None if it can."""
    if not Path(BWRAP).exists():
        return NO_BWRAP
    try:
        with tempfile.TemporaryFile() as said:
            try:
                _printed(DigestProgram(TRUE, END_SECONDS, None), [], said)
            except DigestFault as fault:
                return f"{NOT_ALLOWED}: {first_line(said) or fault}"
    except OSError as error:
        return f"{NOT_ALLOWED}: {error}"
    return None


def first_line(file: IO[bytes]) -> str:
    """Returns the first line of what bubblewrap wrote into a file."""
    file.seek(0)
    lines = file.read(MOST_SAID).decode(errors="replace").splitlines()
    return "".join(one if one.isprintable() else " " for one in lines[0]).strip() if lines else ""


class NotStarted(DigestFault):
    """Raised if a program was not started, so it has no status."""


def _printed(
    program: DigestProgram, files: list[tuple[str, Path]], errors: IO[bytes] | int = subprocess.DEVNULL
) -> str:
    """Returns what a program prints for some files. Its standard error may go into a file. Raises NotStarted,
    too.
    """
    try:
        with tempfile.TemporaryFile() as output, tempfile.TemporaryFile() as status:
            _run(program, files, output, status, errors)
            return _text(output, _status(status))
    except OSError as error:
        raise NotStarted(f"it can't be run: {error}") from None


def command(program: DigestProgram, files: list[tuple[str, Path]], status_file: int) -> list[str]:
    """Returns the command that runs a digest program. bubblewrap writes what it says of the end into a file
    with a descriptor.
    """
    limits = {
        "as": MEMORY_BYTES,
        "cpu": program.seconds,
        "nofile": MOST_FILES,
        "fsize": FOLDER_BYTES,
        "core": 0,
    }
    words = [CHOOM, "-n", str(FIRST_TO_END), "--"]
    words += [PRLIMIT, *(f"--{name}={most}" for name, most in limits.items()), "--", BWRAP, *SANDBOX]
    words += ["--json-status-fd", str(status_file), "--ro-bind", str(program.path.absolute()), "/digest"]
    for name, path in files:
        words += ["--ro-bind", str(path.absolute()), f"/files/{name}"]
    # outside of its own system the limit would count the threads of the bridge, too
    words += ["--remount-ro", "/", "--", PRLIMIT, f"--nproc={MOST_PROCESSES}", "--", "/digest"]
    return words + [f"/files/{name}" for name, _ in files]


def _run(
    program: DigestProgram,
    files: list[tuple[str, Path]],
    output: IO[bytes],
    status: IO[bytes],
    errors: IO[bytes] | int,
) -> None:
    """Runs a digest program. What it prints goes into one file, and what bubblewrap says of its end into
    another.
    """
    nothing: dict[str, str] = {}
    process = subprocess.Popen(
        command(program, files, status.fileno()),
        env=nothing,
        stdin=subprocess.DEVNULL,
        stdout=output,
        stderr=errors,
        pass_fds=[status.fileno()],
        cwd="/",
    )
    try:
        process.wait(program.seconds + 1)
    except subprocess.TimeoutExpired:
        raise DigestFault(f"it takes more than {program.seconds} seconds") from None
    finally:
        if process.poll() is None:
            process.kill()  # bubblewrap's children end with it
            process.wait(END_SECONDS)


def _status(file: IO[bytes]) -> int:
    """Returns the status of a program, by lines of bubblewrap. It has none if the program did not start."""
    file.seek(0)
    for line in file.read(MOST_OUTPUT * 4).splitlines():
        event = json.loads(line)
        if "exit-code" in event:
            return int(event["exit-code"])
    raise NotStarted(f"{BWRAP} could not start it")


def _text(file: IO[bytes], status: int) -> str:
    """Returns what a program printed, if its status allows it."""
    if status not in (0, BAD_FILES):
        raise DigestFault(f"its status is {status}")
    file.seek(0)
    output = file.read(MOST_OUTPUT + 1)
    if len(output) > MOST_OUTPUT:
        raise DigestFault(f"it prints more than {MOST_OUTPUT} bytes")
    try:
        text = output.decode().strip()
    except UnicodeDecodeError:
        raise DigestFault("what it prints is not UTF-8") from None
    if NO_XML.search(text):
        raise DigestFault("what it prints has control characters")
    if status == BAD_FILES:
        raise BadFiles(text or "the digest program says that the files are bad")
    return text


def compared_files(files: Iterable[OutputFile], paths: dict[str, Path]) -> list[tuple[str, Path]]:
    """Returns the files that a digest program gets, in the order of the catalogue: those that are compared
    and exist.
    """
    names = [one.open_name for one in files if one.is_compared]
    return [(name, paths[name]) for name in names if name in paths]


# ---- Checks


def check_digest(program: DigestProgram, files: Iterable[OutputFile]) -> str | None:
    """Runs a digest program twice on its example, and returns what it prints. Returns None without an
    example. Raises DigestFault if the two differ, if the example is bad, or if the program can't run.
    """
    why = why_not_started()
    if why is not None:
        raise CannotRun(why)
    if program.example is None:
        return None
    found = example_files(program.example, files)
    try:
        texts = [digest_of(program, found) for _ in range(2)]
    except BadFiles as fault:
        raise DigestFault(f"it says that its example is bad: {fault}") from None
    if texts[0] != texts[1]:
        raise DigestFault(f"it prints two texts for the same files: {texts[0]!r} and {texts[1]!r}")
    return texts[0]


def example_files(folder: Path, files: Iterable[OutputFile]) -> list[tuple[str, Path]]:
    """Returns the files of an example that are compared, in the order of the catalogue."""
    files = list(files)
    paths = {one.open_name: folder / one.open_name for one in files}
    return compared_files(files, {name: path for name, path in paths.items() if path.is_file()})


def odd_files(
    program: DigestProgram, files: Iterable[OutputFile], folder: Path
) -> Iterator[tuple[str, Path]]:
    """Makes folders with files that a stranger may send, and yields what each has: empty files, the example
    without its second half, and large files, each as large as it may be or LARGE_BYTES.
    """
    compared = [one for one in files if one.is_compared]
    examples: dict[str, Path] = (
        {} if program.example is None else dict(example_files(program.example, compared))
    )
    for name in ("empty", "cut", "large"):
        (folder / name).mkdir()
    for one in compared:
        example = examples.get(one.open_name)
        content = b"0 " if example is None else read_up_to(example, LARGE_BYTES)
        large = min(LARGE_BYTES, one.max_nbytes)
        (folder / "empty" / one.open_name).touch()
        (folder / "cut" / one.open_name).write_bytes(content[: len(content) // 2])
        times = large // max(1, len(content)) + 1
        (folder / "large" / one.open_name).write_bytes(((content or b"0 ") * times)[:large])
    yield "an empty file", folder / "empty"
    if program.example is not None:
        yield "the first half of its example", folder / "cut"
    yield "a large file", folder / "large"


def read_up_to(path: Path, most: int) -> bytes:
    """Returns the first bytes of a file."""
    with path.open("rb") as file:
        return file.read(most)


def tried_on_odd_files(program: DigestProgram, files: Iterable[OutputFile]) -> Iterator[str]:
    """Runs a digest program on files that a stranger may send, and yields what it does with each."""
    files = list(files)
    with tempfile.TemporaryDirectory() as folder:
        for what, path in odd_files(program, files, Path(folder)):
            yield f"{what}: {what_it_does(program, example_files(path, files))}"


def what_it_does(program: DigestProgram, found: list[tuple[str, Path]]) -> str:
    """Returns what a digest program does with some files, for the operator."""
    try:
        return f"it prints {digest_of(program, found)!r}"
    except BadFiles as fault:
        return f"it says that the files are bad ({str(fault)!r}), so the result is an error"
    except DigestFault as fault:
        return f"it fails ({fault}), so the report waits; bad files need status {BAD_FILES}"
