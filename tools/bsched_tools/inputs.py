"""What a batch of work is made of: files, the lines of a file, or all combinations of parameters.

Each becomes a workunit. Its name is that of the batch and, after `_`, the name of the file or a number.
"""
import hashlib
import itertools
import os
import re
from collections.abc import Callable, Iterable
from dataclasses import dataclass
from pathlib import Path

from bsched_files.catalogue import MOST_LINE
from bsched_files.counts import MOST
from bsched_files.faults import Fault
from bsched_files.texts import WORD

MOST_WORKUNITS = MOST["unit"]
BATCH = re.compile(r"[A-Za-z0-9_][A-Za-z0-9_.-]{0,39}")
SWEEP = re.compile(r"([A-Za-z][A-Za-z0-9_-]*)=(.+)")
RANGE = re.compile(r"(-?[0-9]{1,15})\.\.(-?[0-9]{1,15})")
NO_LINE = re.compile("[\x00-\x08\x0a-\x1f\x7f\ud800-\udfff\ufffe\uffff]")
Seen = Callable[[int, int], None]  # gets how many are done, and of how many


@dataclass(frozen=True, slots=True)
class Input:
    """The input of a workunit: a file, or the end of its command line."""

    workunit: str
    shown: str  # the path of the file, or the line
    path: Path | None
    nbytes: int
    sha256: str


def check_batch(name: str) -> None:
    """Refuses a name that can't be that of a batch."""
    if not BATCH.fullmatch(name):
        rule = "1 to 40 letters, digits, '_', '-' and '.', and not '-' or '.' first"
        raise Fault(f"--batch {name!r}: the name of a batch has {rule}")


def workunit_name(batch: str, end: str, source: object) -> str:
    """Returns the name of a workunit."""
    name = f"{batch}_{end}"
    if not WORD.fullmatch(name):
        rule = "only letters, digits, '_', '-' and '.', and at most 64 with the name of the batch"
        raise Fault(f"{source}: rename it: its name makes that of a workunit, which has {rule}")
    return name


# ---- Files


def files_in(paths: Iterable[Path]) -> list[Path]:
    """Returns the files that paths name. A folder means the files in it; those that begin with a dot are left
    out.
    """
    files: list[Path] = []
    for path in paths:
        try:
            inside = sorted(path.iterdir()) if path.is_dir() else [path]
        except OSError as error:
            raise Fault(f"{path}: {error.strerror}") from None
        if path.is_dir():
            inside = [one for one in inside if not one.name.startswith(".")]
            if not inside:
                raise Fault(f"{path}: there is no file in this folder")
        files += inside
        if len(files) > MOST_WORKUNITS:
            raise Fault(f"{path}: there are more than {MOST_WORKUNITS:,} inputs")
    return files


def digest_of(path: Path) -> tuple[int, str]:
    """Returns the size and the SHA-256 of a file."""
    try:
        if path.is_dir():
            raise Fault(f"{path}: it is a folder within a folder of inputs: name it as an input of its own")
        with path.open("rb") as file:
            return os.fstat(file.fileno()).st_size, hashlib.file_digest(file, "sha256").hexdigest()
    except OSError as error:
        raise Fault(f"{path}: {error.strerror}") from None


def of_files(batch: str, paths: Iterable[Path], seen: Seen) -> list[Input]:
    """Returns an input for each file."""
    names: dict[str, Path] = {}
    files = files_in(paths)
    for path in files:
        name = workunit_name(batch, path.name, path)
        if name in names:
            raise Fault(f"{path}: {names[name]} has the same name: rename one of them")
        names[name] = path
    inputs = []
    for number, (name, path) in enumerate(names.items(), 1):
        inputs.append(Input(name, str(path), path, *digest_of(path)))
        seen(number, len(names))
    return inputs


# ---- Lines and sweeps


def of_texts(batch: str, lines: list[tuple[str, str]]) -> list[Input]:
    """Returns an input for each command line. Each line comes with the place that a fault names."""
    if len(lines) > MOST_WORKUNITS:
        raise Fault(f"{lines[0][0]}: there are {len(lines):,} command lines, more than {MOST_WORKUNITS:,}")
    width, inputs = len(str(len(lines))), []
    for number, (where, line) in enumerate(lines, 1):
        data = line.encode(errors="surrogatepass")
        if NO_LINE.search(line) or len(data) > MOST_LINE:
            raise Fault(f"{where}: a command line has at most {MOST_LINE} bytes and no control characters")
        name = workunit_name(batch, f"{number:0{width}}", where)
        inputs.append(Input(name, line, None, len(data), hashlib.sha256(data).hexdigest()))
    return inputs


def lines_in(path: Path) -> list[tuple[str, str]]:
    """Returns the lines of a file. Empty ones are left out."""
    try:
        text = path.read_bytes().decode(encoding="utf-8").removeprefix("\ufeff")
    except OSError as error:
        raise Fault(f"{path}: {error.strerror}") from None
    except UnicodeDecodeError as error:
        line = error.object.count(b"\n", 0, error.start) + 1
        raise Fault(f"{path}: line {line}: it is not UTF-8") from None
    numbered = enumerate((line.removesuffix("\r") for line in text.split("\n")), 1)
    lines = [(f"{path}: line {number}", line.strip()) for number, line in numbered if line.strip()]
    if not lines:
        raise Fault(f"{path}: it has no lines")
    return lines


def values_of(text: str) -> list[str]:
    """Returns the values of a parameter: words with commas between them, and ranges such as 1..100."""
    values: list[str] = []
    for word in text.split(","):
        match = RANGE.fullmatch(word)
        if match is None:
            if not word or any(one.isspace() for one in word):
                raise Fault(f"--sweep {text!r}: a value is empty, or has a blank")
            values.append(word)
            continue
        low, high = int(match[1]), int(match[2])
        if not low <= high < low + MOST_WORKUNITS:
            raise Fault(
                f"--sweep {word}: write the lower number first, with at most {MOST_WORKUNITS:,} values"
            )
        values += map(str, range(low, high + 1))
    return values


def combinations(sweeps: Iterable[str]) -> list[tuple[str, str]]:
    """Returns a command line for each combination of the values of parameters, such as `-a 1 --size 20`."""
    parameters: dict[str, list[str]] = {}
    total = 1
    for text in sweeps:
        match = SWEEP.fullmatch(text)
        if match is None or match[1] in parameters:
            raise Fault(f"--sweep {text}: write NAME=VALUES, each name once, such as a=1..100 or b=x,y,z")
        name = match[1]
        parameters[name] = values_of(match[2])
        total *= len(parameters[name])
        if total > MOST_WORKUNITS:
            raise Fault(f"--sweep {text}: there are more than {MOST_WORKUNITS:,} combinations")
    options = [f"-{name}" if len(name) == 1 else f"--{name}" for name in parameters]
    rows = itertools.product(*parameters.values())
    return [
        (f"--sweep {','.join(row)}", " ".join(f"{option} {value}" for option, value in zip(options, row)))
        for row in rows
    ]
