"""What the command lines of the bridge and of the tools have in common."""
import argparse
import sys
from importlib import metadata
from pathlib import Path
from typing import NoReturn

BAD_COMMAND_LINE = 64  # the exit status, as that of bsched
PACKAGE = "bsched-tools"  # the package of Debian and of Python that has all of it


class CommandLine(argparse.ArgumentParser):
    """A parser that ends with the status of bsched for a bad command line."""

    def error(self, message: str) -> NoReturn:
        """Prints what is wrong, and ends the program."""
        self.print_usage(sys.stderr)
        self.exit(BAD_COMMAND_LINE, f"{self.prog.partition(' ')[0]}: {message}\n")


def version() -> str:
    """Returns the version: of the package, or of the clone in which this file is."""
    file = Path(__file__).resolve().parent.parent.parent / "VERSION"
    return file.read_text().strip() if file.exists() else metadata.version(PACKAGE)
