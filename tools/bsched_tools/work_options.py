"""The words of the commands that make work and collect its outputs."""
import argparse
from pathlib import Path
from typing import Any

from .amounts import credit, days, errors, factor, hours, nbytes, quorum, slice_size

PLATFORM = "x86_64-pc-linux-gnu"
LINK_HELP = "hard links and not copies: read-only files that are the project's own store. Never write to them"


def add_work(commands: "argparse._SubParsersAction[Any]", project: str) -> None:
    """Adds the commands. Each needs a project, for which there is a help text."""
    further = commands.add_parser("feed", help="imports further slices of batches, as their jobs go out")
    made = add_app(commands), add_submit(commands), add_progress(commands), add_collect(commands), further
    for parser in made:
        parser.add_argument("--project", required=True, metavar="P", help=project)


def add_progress(commands: "argparse._SubParsersAction[Any]") -> argparse.ArgumentParser:
    """Adds the command that says how far the work is."""
    progress: argparse.ArgumentParser = commands.add_parser(
        "progress", help="how far the work is, and when it may end"
    )
    progress.add_argument("--batch", metavar="B", help="only this batch")
    progress.add_argument("--watch", action="store_true", help="keeps it on the screen, until Ctrl-C")
    return progress


def add_collect(commands: "argparse._SubParsersAction[Any]") -> argparse.ArgumentParser:
    """Adds the command that collects outputs."""
    collect: argparse.ArgumentParser = commands.add_parser(
        "collect", help="puts the outputs into a folder, each once"
    )
    collect.add_argument("--batch", metavar="B", help="only this batch")
    collect.add_argument("--to", type=Path, required=True, metavar="DIR", help="the folder")
    collect.add_argument("--link", action="store_true", help=LINK_HELP)
    return collect


def add_app(commands: "argparse._SubParsersAction[Any]") -> argparse.ArgumentParser:
    """Adds the command that adds an application."""
    app: argparse.ArgumentParser = commands.add_parser(
        "app", help="adds an application, or a version of its program"
    )
    app.add_argument("name", metavar="NAME", help="the name of the application")
    app.add_argument("--program", type=Path, required=True, metavar="FILE", help="the main program")
    app.add_argument(
        "--file",
        action="append",
        default=[],
        metavar="F[:NAME]",
        help="a further file; NAME is how it is opened",
    )
    app.add_argument("--platform", default=PLATFORM, metavar="P", help=f"BOINC's name; default {PLATFORM}")
    app.add_argument(
        "--agreement", default="exact", metavar="A", help="exact, which is the default, or within:N"
    )
    app.add_argument(
        "--output",
        action="append",
        metavar="NAME:BYTES",
        help="an output file and its most bytes; :optional after it: it may be missing; :ignored: it is not "
        "compared. Without one the output is what it writes to standard error",
    )
    app.add_argument("--title", metavar="T", help="the name for volunteers")
    inputs = app.add_mutually_exclusive_group()
    inputs.add_argument("--input", metavar="NAME", help="how it opens its input file; default in")
    inputs.add_argument(
        "--command-lines", action="store_true", help="it takes a command line, and no input file"
    )
    app.add_argument("--command-line", metavar="TEXT", help="the command line, or its front")
    app.add_argument("--memory", type=nbytes, metavar="N", help="the most memory of a job; default 100M")
    app.add_argument("--disk", type=nbytes, metavar="N", help="the most disk of a job; default 1G")
    app.add_argument(
        "--limit", type=factor, metavar="N", help="a job is ended after N times its hours; default 10"
    )
    app.add_argument(
        "--report-immediately",
        action="store_true",
        help="clients report a finished job at once, and not with their next request, within an hour",
    )
    app.add_argument("--key", type=Path, metavar="FILE", help="the private key for code signing")
    return app


def add_submit(commands: "argparse._SubParsersAction[Any]") -> argparse.ArgumentParser:
    """Adds the command that makes work."""
    submit: argparse.ArgumentParser = commands.add_parser("submit", help="makes a workunit of each input")
    submit.add_argument("--app", required=True, metavar="NAME", help="the application")
    submit.add_argument("--batch", required=True, metavar="B", help="a new name; the workunits begin with it")
    submit.add_argument("inputs", type=Path, nargs="*", metavar="INPUT", help="files, or folders of files")
    submit.add_argument("--lines", type=Path, metavar="FILE", help="a command line on each line")
    submit.add_argument(
        "--sweep", action="append", metavar="A=V", help="all values V of a parameter: 1..100, or x,y,z"
    )
    submit.add_argument(
        "--hours", type=hours, default=1.0, metavar="H", help="of one processor of a usual PC; default 1"
    )
    submit.add_argument("--days", type=days, default=7.0, metavar="D", help="until the deadline; default 7")
    submit.add_argument("--memory", type=nbytes, metavar="N", help="such as 500M; default: the application's")
    submit.add_argument("--disk", type=nbytes, metavar="N", help="such as 2G; default: the application's")
    submit.add_argument(
        "--quorum", type=quorum, default=2, metavar="N", help="how many results agree; default 2"
    )
    submit.add_argument(
        "--errors",
        type=errors,
        metavar="N",
        help="a workunit fails with more client errors; default: 0 for --quorum 1, else the quorum",
    )
    submit.add_argument(
        "--slice",
        type=slice_size,
        metavar="N",
        help="imports N workunits now, and the others as jobs go out, so that other batches get their turn",
    )
    submit.add_argument("--credit", type=credit, metavar="C", help="for each result; default: by the hours")
    submit.add_argument(
        "--link",
        action="store_true",
        help="hard links and not copies of the inputs: never write to an input while its job is out",
    )
    submit.add_argument("--dry-run", action="store_true", help="shows what it would do, and changes nothing")
    return submit
