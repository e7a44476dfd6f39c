"""The command line of the tools."""
import argparse
import os
import signal
import sys
import time
from collections.abc import Callable, Iterable
from io import TextIOWrapper
from pathlib import Path
from types import FrameType
from typing import NoReturn

from bsched_files.atomic import replace_file
from bsched_files.copies import copies_in
from bsched_files.counts import NAME as COUNTS
from bsched_files.faults import Fault
from bsched_files.findings import Finding, Level, worst_of
from bsched_files.news import read_news
from bsched_files.tables import opened
from bsched_files.texts import shown

from .amounts import count_text
from .catalogue_file import output_names_of
from .command_line import NAME, new_parser
from .copies.copying import copy_tables
from .copies.faults import Ended
from .copies.listing import KeptCopy, Kind, kept_copies, kept_copy, newest_copy
from .counts import as_json, as_lines, as_metrics, counted, files_counted, total
from .doctor import examined
from .exports import export
from .health import findings_of, write_findings
from .import_files import KINDS, ImportFile, checked
from .imports import import_file
from .jobs import host_lines, workunit_lines
from .mailing import mail_changes
from .news import add_news, news_lines, withdraw_news
from .process import hand_on
from .project_access import check_member
from .projects import PROGRAM, Project, project_of
from .results import write_results
from .start_times import rows_in, start_text
from .stuck import named
from .users import agreed_in
from .volunteers import Volunteers, ask_bridge, volunteers_of
from .work_commands import WORK_COMMANDS, say_spoiled

FAULT = 1
Arguments = argparse.Namespace


def project_named(args: Arguments, stays_root: bool = False) -> Project | None:
    """Returns the project of the command line, if it names one. As root the command goes on as its owner, who
    may not make the public folders, unless it stays root."""
    if args.project is None:
        return None
    project = project_of(args.project)
    units = project.units()
    public = {"report": units.page, "statistics": units.statistics}.get(args.command)
    if public is not None and args.to is None:
        project.made(public, 0o755)
    if not stays_root:
        project.become_owner()
    return project


def copies_of(args: Arguments, project: Project | None, is_several: bool = True) -> list[Path]:
    """Returns the copies that are read: of a project its earlier files, too, unless one copy is read."""
    if project is not None:
        folder = project.units().copies
        if not folder.is_dir() or not copies_in(folder):
            raise Fault(
                f"{folder}: there is no copy yet: make one by `bsched-tools copy --project {args.project}`"
            )
        return [*(project.archives if is_several else []), folder]
    return list(args.tables) if isinstance(args.tables, list) else [args.tables]


def chosen(project: Project | None) -> Volunteers:
    """Returns what the volunteers of a project chose."""
    return Volunteers() if project is None else volunteers_of(project)


def needed(args: Arguments, option: str, default: Path | None) -> Path:
    """Returns the value of an option that only a project has a default for."""
    value: Path | None = getattr(args, option) or default
    if value is None:
        new_parser().error(f"{args.command}: --{option} or --project is needed")
    return value


# ---- The commands


def copy(args: Arguments) -> None:
    """Copies the tables, and prints how long serving stood still. It stays root, to stop the scheduler."""
    tables, to, keep, check = args.tables, args.to, args.keep, args.check
    if args.project is not None:
        project = project_of(args.project)
        units, tables = project.units(), project.tables
        keep = keep or (None if to else units.copies_kept)
        check = check or (PROGRAM if units.is_checked and PROGRAM.exists() else None)
        to = to or project.copies_made(units.copies)
    to = needed(args, "to", to)
    copied = copy_tables(tables, to, keep, check)
    still = "nobody had the tables"
    if copied.still_seconds is not None:
        still = f"serving stood still for {copied.still_seconds * 1000:.0f} milliseconds"
    print(f"{copied.path}: {copied.size} bytes, {still}")
    for path in copied.removed:
        print(f"removed {path}")
    if args.project is not None and to.is_dir():
        copy_state(project_of(args.project), to, keep)


def copy_state(project: Project, folder: Path, keep: int | None) -> None:
    """Copies the state of the project's bridge, too, if there is one."""
    state = project.bridge_state
    if state is not None and state.exists():
        args = ["copy", "--config", str(project.bridge_file), "--to", str(folder)]
        print(ask_bridge([*args, *([] if keep is None else ["--keep", str(keep)])]), end="")


def list_copies(args: Arguments) -> None:
    """Prints the copies of a project, or one of them. It stays root, who may look at each."""
    listed = copies_asked(args, project_of(args.project))
    if args.json:
        print_lines(one.json for one in listed)
    else:
        print_lines(one.line if args.newest is None else str(one.path) for one in listed)


def copies_asked(args: Arguments, project: Project) -> list[KeptCopy]:
    """Returns the copies for which the command line asks. A path needs no file `units.toml`."""
    if args.copy is not None and ("/" in args.copy or Path(args.copy).exists()):
        return [kept_copy(Path(args.copy))]
    folder, stem = project.units().copies, project.tables.stem
    if args.copy is not None:
        return [kept_copy(folder / args.copy)]
    if args.newest is not None:
        return [newest_copy(folder, Kind(args.newest), stem)]
    listed = kept_copies(folder, stem)
    if not listed:
        advice = f"`bsched-tools copy --project {args.project}` makes one"
        print(f"{NAME}: there is no copy in {folder}: {advice}", file=sys.stderr)
    return listed


def results(args: Arguments) -> int:
    """Writes the results. Returns 1 if the files of some are spoiled. With files it stays root, to give them
    to the owner of their folder."""
    project = project_named(args, stays_root=args.files is not None)
    names = chosen(project).names
    uploads = args.uploads or (project.uploads if project else None)
    if args.files is not None and uploads is None:
        if project is not None:
            project.check_uploads()
        new_parser().error("results: --files needs --uploads FOLDER, or a project whose bridge has uploads")
    written = write_results(
        copies_of(args, project),
        args.json,
        args.after,
        args.cursor,
        args.to,
        names=names,
        uploads=uploads,
        output_names=output_names_of(project) if project and uploads else None,
        files_to=args.files,
        is_linked=args.link,
    )
    if written.why_nothing is not None:
        print(f"{NAME}: {written.why_nothing}", file=sys.stderr)
    if project is not None and written.stuck:
        text = f"{count_text(len(written.stuck), 'workunit')} stuck: {named(written.stuck)}"
        print(f"{NAME}: {shown(text)}", file=sys.stderr)
    return say_spoiled(written.spoiled)


def process(args: Arguments) -> int:
    """Hands new results to the operator's program. Returns 1 if the files of some are spoiled."""
    project = project_named(args) or project_of(args.project)
    handed = hand_on(project, project.units(), chosen(project).names)
    print(f"{count_text(handed.count, 'workunit')} handed on")
    return say_spoiled(handed.spoiled)


def counts(args: Arguments) -> None:
    """Prints the counts."""
    form = as_json if args.json else as_metrics if args.prometheus else as_lines
    lines = form(counted(copies_of(args, project_named(args))))
    if args.to is not None:
        replace_file(args.to, (f"{line}\n".encode() for line in lines))
        return
    print_lines(lines)


def job(args: Arguments) -> None:
    """Prints what happened to a workunit."""
    project = project_named(args)
    with opened(copies_of(args, project, False)[0], names=chosen(project).names) as tables:
        print_lines(workunit_lines(tables, args.name))


def host(args: Arguments) -> None:
    """Prints what a computer did."""
    project = project_named(args)
    with opened(copies_of(args, project, False)[0], names=chosen(project).names) as tables:
        print_lines(host_lines(tables, args.number))


def doctor(args: Arguments) -> int:
    """Prints why a file is refused, and returns the exit status."""
    if args.project is not None:
        project = project_of(args.project)
        args.tables, args.settings = args.tables or project.tables, args.settings or project.settings
    if args.tables is None and args.settings is None and args.state is None:
        new_parser().error("doctor: --tables F, --settings S, --state F, or --project P")
    found = False
    for fault in examined(args.tables, args.settings, args.state):
        found = True
        print(fault)
    if not found:
        who = "the bridge" if args.tables is None and args.settings is None else "bsched"
        print(f"good: nothing is found that {who} refuses")
        if args.tables is not None and (rows := rows_in(args.tables.resolve())) is not None:
            print(start_text(rows))
    return FAULT if found else 0


def statistics(args: Arguments) -> None:
    """Writes the files for statistics sites, and prints how many users they name."""
    project = project_named(args)
    publication = chosen(project)
    to, agreed, averages, everybody = args.to, publication.agreed, None, args.everybody
    if project is not None:
        units = project.units()
        everybody = everybody or units.is_everybody_named and args.agreed is None
        to = to or project.made(units.statistics, 0o755)
        averages = project.made(project.work, 0o700) / "averages.json"
    if args.agreed is not None:
        agreed = frozenset(agreed_in(args.agreed))
    folder, copies = needed(args, "to", to), copies_of(args, project)
    named = None if everybody else agreed
    made = export(copies, folder, named, publication.names, averages, publication.teams)
    print(f"{folder}: {made.users} users, {made.agreed} of them named, and {made.hosts} computers")


def report(args: Arguments) -> None:
    """Writes the page. For a project it also writes the counts and the plots that the bridge shows on its own
    pages."""
    project = project_named(args)
    to, title, kept, counts, copies = args.to, args.title, None, None, copies_of(args, project)
    copy = copies[-1]
    if project is not None:
        kept, to = project.made(project.work, 0o700), to or project.made(project.units().page, 0o755)
        title, files = title or project.title, files_counted(copies)
        replace_file(kept / COUNTS, [f"{total(files).text()}\n".encode()])
        copy, counts = files[-1].path, total(files[-1:])
    try:
        from .month_plots import write_month
        from .page import write_report
    except ModuleNotFoundError:
        raise Fault("report: it needs Debian's python3-matplotlib: install that") from None
    names = chosen(project).names
    written = write_report(copy, needed(args, "to", to), title, names, kept, counts)
    if project is not None and kept is not None:
        write_month(project.made(kept / "plots", 0o700), written.entries, written.entries[-1].moment)
    print(written.path)


def health(args: Arguments) -> int:
    """Prints what is found, and returns the level of the worst finding. The project's owner also keeps it for
    the bridge. Nothing that fails on the way changes what is found."""
    project = project_of(args.project)
    found: list[Finding] = []
    try:
        units = project.units()
    except Fault as fault:
        found.append(Finding("settings", Level.CRITICAL, str(fault)))
        units = project.default_units()
    project.become_owner()
    found += findings_of(project, units)
    print_lines(one.line for one in found)
    sys.stdout.flush()
    to = args.mail or units.mail
    if to and (fault_of_mail := mail_changes(project, found, to, int(time.time()))) is not None:
        found.append(fault_of_mail)
        print_lines([fault_of_mail.line])
    if os.geteuid() == project.folder.stat().st_uid:
        try:
            write_findings(project, units, found)
        except (Fault, OSError) as fault:
            print(f"{NAME}: the bridge's board does not show this: {fault}", file=sys.stderr)
    return worst_of(found)


def news(args: Arguments) -> int:
    """Shows, lists or withdraws news. Returns 1 if some can't be read."""
    project = project_of(args.project)
    check_member(project)
    if args.action == "add":
        print_lines(add_news(project, args.file, int(time.time())))
    elif args.action == "withdraw":
        print_lines(withdraw_news(project, args.number))
    else:
        found = read_news(project.news)
        print_lines(news_lines(found.items, time.time()))
        for fault in found.faults:
            print(f"{NAME}: {shown(str(fault))}", file=sys.stderr)
        return FAULT if found.faults else 0
    return 0


def read_imports(paths: Iterable[Path]) -> tuple[list[ImportFile], int]:
    """Reads and checks files. Returns those without a fault, and how many have one; prints each fault."""
    good: list[ImportFile] = []
    faulty = 0
    for path in paths:
        file, faults = checked(path)
        for fault in faults:
            print(f"{path}: {fault}")
        if faults or file is None:
            faulty += 1
        else:
            good.append(file)
    return good, faulty


def check(args: Arguments) -> int:
    """Prints what is wrong with files that are imported."""
    good, faulty = read_imports(args.files)
    for file in good:
        print(f"{file.path}: good: {len(file.rows)} rows of {file.kind.name}")
    return FAULT if faulty else 0


def load(args: Arguments) -> int:
    """Imports files, in the order of their kinds. If one of them has a fault, none is imported."""
    good, faulty = read_imports(args.files)
    if faulty:
        return FAULT
    project = project_named(args) or project_of(args.project)
    kinds = list(KINDS)
    for file in sorted(good, key=lambda file: kinds.index(file.kind.name)):
        print_lines(import_file(project, file, args.batch))
    return 0


def work(args: Arguments) -> int | None:
    """Makes work, says how far it is, or collects its outputs."""
    return WORK_COMMANDS[args.command](args, print_lines)


COMMANDS: dict[str, Callable[[Arguments], int | None]] = {
    "copy": copy,
    "copies": list_copies,
    "results": results,
    "process": process,
    "counts": counts,
    "job": job,
    "host": host,
    "doctor": doctor,
    "statistics": statistics,
    "report": report,
    "health": health,
    "news": news,
    "check": check,
    "import": load,
    **dict.fromkeys(WORK_COMMANDS, work),
}


def print_lines(lines: Iterable[str]) -> None:
    """Prints lines. What control characters they have are replaced, since hosts send some of the texts."""
    for line in lines:
        print(shown(line))


def end_by_signal(number: int, _frame: FrameType | None) -> NoReturn:
    """Handles a signal to end. What it raises lets the command clean up first."""
    raise Ended(f"ended by {signal.Signals(number).name}")


def parsed() -> Arguments:
    """Reads the command line. What it prints for `--help` is written before it ends the program."""
    try:
        return new_parser().parse_args()
    except SystemExit:
        sys.stdout.flush()
        raise


def let_output_go() -> None:
    """Has Python not try again at its exit to write what could not be written."""
    os.dup2(os.open(os.devnull, os.O_WRONLY), 1)


def main() -> int:
    """Does what the command line says, and returns the exit status."""
    for number in (signal.SIGINT, signal.SIGTERM, signal.SIGHUP):
        signal.signal(number, end_by_signal)
    if isinstance(sys.stdout, TextIOWrapper):
        sys.stdout.reconfigure(encoding="utf-8", errors="replace", newline="")
    fault_status: int = FAULT
    try:
        args = parsed()
        fault_status = Level.UNKNOWN if args.command == "health" else FAULT
        status = COMMANDS[args.command](args)
        sys.stdout.flush()
    except (Fault, Ended) as fault:
        print(f"{NAME}: {fault}", file=sys.stderr)
        return fault_status
    except BrokenPipeError:  # who read the output has enough
        let_output_go()
        return 128 + signal.SIGPIPE
    except OSError as error:
        where = f"{error.filename}: " if error.filename else "standard output: "
        print(f"{NAME}: {where}{error.strerror}", file=sys.stderr)
        let_output_go()
        return fault_status
    return status or 0


if __name__ == "__main__":
    sys.exit(main())
