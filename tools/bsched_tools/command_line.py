"""The words of the command line of the tools."""
import argparse
from pathlib import Path

from bsched_files.command_line import CommandLine, version

from .copies.listing import Kind
from .work_options import LINK_HELP, add_work

MOST_COUNT = 10**18 - 1  # SQLite has no much larger numbers
NAME = "bsched-tools"
COPIES = "copies of the tables; a folder means its newest copy"
A_COPY = "a copy of the tables; a folder means its newest copy"
NEWEST = "prints the path of the newest copy alone; KIND is tables, or state for the bridge's state file"
PROJECT = "a project of bsched-project: its name, or its folder with a slash"


def count(text: str) -> int:
    """Reads a whole number that is at least 1, and that SQLite can have."""
    is_number = text.isascii() and text.isdigit() and len(text) <= len(str(MOST_COUNT))
    if not is_number or int(text) < 1:
        raise argparse.ArgumentTypeError(f"{text[:40]} is not a whole number from 1 to {MOST_COUNT}")
    return int(text)


def add_copies(parser: argparse.ArgumentParser, is_several: bool = True) -> None:
    """Adds the options that say which tables are read: copies, or the newest copy of a project."""
    source = parser.add_mutually_exclusive_group(required=True)
    if is_several:
        source.add_argument("--tables", type=Path, nargs="+", metavar="COPY", help=COPIES)
    else:
        source.add_argument("--tables", type=Path, metavar="COPY", help=A_COPY)
    source.add_argument("--project", metavar="P", help=PROJECT)


def add_project(parser: argparse.ArgumentParser) -> None:
    """Adds the option that names the project, which is needed."""
    parser.add_argument("--project", required=True, metavar="P", help=PROJECT)


def new_parser() -> CommandLine:
    """Returns the parser of the command line."""
    parser = CommandLine(prog=NAME, description="Tools for the operator of a project of bsched.")
    parser.add_argument("--version", action="version", version=f"{NAME} {version()}")
    commands = parser.add_subparsers(dest="command", metavar="COMMAND", required=True)
    copy = commands.add_parser("copy", help="copies the tables while a program serves them")
    source = copy.add_mutually_exclusive_group(required=True)
    source.add_argument("--tables", type=Path, metavar="F", help="the tables of the project")
    source.add_argument("--project", metavar="P", help=PROJECT)
    copy.add_argument("--to", type=Path, metavar="G", help="a folder of copies, or a new file")
    copy.add_argument("--keep", type=count, metavar="N", help="keeps N copies, and removes older ones")
    copy.add_argument("--check", type=Path, metavar="PROGRAM", help="has this bsched open the copy, too")
    copies = commands.add_parser("copies", help="the copies of a project, the newest first")
    add_project(copies)
    shown = copies.add_mutually_exclusive_group()
    shown.add_argument("--newest", choices=[*Kind], metavar="KIND", help=NEWEST)
    shown.add_argument(
        "copy", nargs="?", metavar="COPY", help="only this one: its name, or the path of a file"
    )
    copies.add_argument("--json", action="store_true", help="lines of JSON")
    add_reading(commands)
    add_publishing(commands)
    add_importing(commands)
    add_work(commands, PROJECT)
    doctor = commands.add_parser("doctor", help="why bsched says `bsched: file` or `bsched: settings`")
    doctor.add_argument("--tables", type=Path, metavar="F", help="the tables")
    doctor.add_argument("--settings", type=Path, metavar="S", help="the file of settings")
    doctor.add_argument(
        "--state", type=Path, metavar="F", help="a state file of the bridge, or a copy of one"
    )
    doctor.add_argument("--project", metavar="P", help=f"the tables and the settings of {PROJECT}")
    health = commands.add_parser("health", help="whether a project is well, for people and monitors")
    add_project(health)
    health.add_argument("--mail", metavar="ADDRESS", help="mails what changed since the last mail")
    return parser


def add_reading(commands: "argparse._SubParsersAction[CommandLine]") -> None:
    """Adds the commands that print what copies have."""
    results = commands.add_parser("results", help="the results of workunits that are done or have failed")
    add_copies(results)
    results.add_argument("--json", action="store_true", help="lines of JSON, and not comma-separated values")
    results.add_argument("--to", type=Path, metavar="NEW", help="a new file, and not standard output")
    results.add_argument("--uploads", type=Path, metavar="FOLDER", help="the bridge's folder of uploads")
    results.add_argument("--files", type=Path, metavar="DIR", help="gets the files of canonical results")
    results.add_argument("--link", action="store_true", help=f"for --files: {LINK_HELP}")
    begin = results.add_mutually_exclusive_group()
    begin.add_argument("--after", metavar="NAME", help="only workunits that were imported after this one")
    begin.add_argument("--cursor", type=Path, metavar="FILE", help="only what was not given out before")
    process = commands.add_parser("process", help="hands new results to a program of yours")
    add_project(process)
    counts = commands.add_parser("counts", help="how many there are of each thing, and what is used")
    add_copies(counts)
    form = counts.add_mutually_exclusive_group()
    form.add_argument("--json", action="store_true", help="one line of JSON")
    form.add_argument("--prometheus", action="store_true", help="the text format of Prometheus")
    counts.add_argument("--to", type=Path, metavar="FILE", help="replaces a file, and not standard output")
    job = commands.add_parser("job", help="what happened to a workunit")
    add_copies(job, is_several=False)
    job.add_argument("name", metavar="NAME", help="the name of a workunit, or of one of its results")
    host = commands.add_parser("host", help="what a computer did")
    add_copies(host, is_several=False)
    host.add_argument("number", type=count, metavar="N", help="the computer's number")


def add_publishing(commands: "argparse._SubParsersAction[CommandLine]") -> None:
    """Adds the commands that write what others read."""
    statistics = commands.add_parser("statistics", help="the files that statistics sites read")
    add_copies(statistics)
    statistics.add_argument("--to", type=Path, metavar="DIR", help="the folder of the files")
    who = statistics.add_mutually_exclusive_group()
    who.add_argument("--agreed", type=Path, metavar="FILE", help="the authenticators of users who agreed")
    who.add_argument("--everybody", action="store_true", help="names all users")
    news = commands.add_parser("news", help="the news for volunteers, on pages, in feeds and in the Manager")
    actions = news.add_subparsers(dest="action", metavar="ACTION", required=True)
    add = actions.add_parser("add", help="shows a text to volunteers")
    add.add_argument(
        "file", type=Path, metavar="FILE", help="a line of title, maybe a line with a date, text"
    )
    listing = actions.add_parser("list", help="the news, the newest first, each with its number")
    withdraw = actions.add_parser("withdraw", help="shows a text no more")
    withdraw.add_argument("number", type=count, metavar="N", help="the number of the news")
    for parser in (add, listing, withdraw):
        add_project(parser)
    report = commands.add_parser("report", help="a page with tables and plots")
    add_copies(report, is_several=False)
    report.add_argument("--to", type=Path, metavar="DIR", help="the folder of the page")
    report.add_argument("--title", metavar="NAME", help="the name of the project on the page")


def add_importing(commands: "argparse._SubParsersAction[CommandLine]") -> None:
    """Adds the commands about files that are imported."""
    load = commands.add_parser("import", help="imports files into a project")
    add_project(load)
    load.add_argument("--batch", metavar="NAME", help="the name of the batch; else it is made from the bytes")
    load.add_argument("files", type=Path, nargs="+", metavar="FILE.csv")
    check = commands.add_parser("check", help="why bsched would refuse files that are imported")
    check.add_argument("files", type=Path, nargs="+", metavar="FILE.csv")
