"""The commands that lead from a program and a folder of inputs to a folder of outputs."""
import argparse
import signal
import sys
from collections.abc import Callable, Iterable

from bsched_files.faults import Fault
from bsched_files.texts import shown

from .amounts import MOST_CREDIT, count_text
from .apps import LINE_FOLDER, NewApp, add_app, input_member, output_member, read_files
from .catalogue_file import ProjectCatalogue
from .collecting import collect_files, collected_lines
from .inputs import Input, check_batch, combinations, lines_in, of_files, of_texts
from .progress_bars import Bar
from .project_access import check_member, looked_at, tables_of, turn_of
from .projects import Project, project_of
from .slices import feed
from .submitting import CREDIT_OF_HOUR, Amounts, Plan, app_of, check_sizes, errors_of, places_of, submit_work
from .watching import lines_now, screens

Arguments = argparse.Namespace
MOST_SPOILED = 20  # that are named
CLEAR = "\033[H\033[2J"
Printer = Callable[[Iterable[str]], None]


def member_project(args: Arguments) -> Project:
    """Returns the project of the command line, for its members alone."""
    project = project_of(args.project)
    check_member(project)
    return project


def app(args: Arguments, printed: Printer) -> None:
    """Adds an application or a version."""
    project = member_project(args)
    members = {
        "title": args.title,
        "command_line": args.command_line,
        "command_lines": LINE_FOLDER if args.command_lines else None,
        "input_files": input_member(args.input) if args.input is not None else None,
        "output_files": [output_member(text) for text in args.output] if args.output else None,
        "rsc_memory_bound": args.memory,
        "rsc_disk_bound": args.disk,
        "fpops_bound_factor": args.limit,
        "report_immediately": args.report_immediately or None,
    }
    files = read_files(args.program, args.file)
    with turn_of(project):
        printed(add_app(project, NewApp(args.name, args.platform, files, args.agreement, members), args.key))


def inputs_asked(args: Arguments) -> list[Input]:
    """Returns the inputs that the command line names."""
    given = [name for name in ("inputs", "lines", "sweep") if getattr(args, name)]
    if len(given) != 1:
        raise Fault("submit: name inputs, or --lines FILE, or --sweep: just one of the three")
    if args.lines is not None:
        return of_texts(args.batch, lines_in(args.lines))
    if args.sweep:
        return of_texts(args.batch, combinations(args.sweep))
    bar = Bar("reading the inputs")
    try:
        return of_files(args.batch, args.inputs, bar.seen)
    finally:
        bar.end()


def submit(args: Arguments, printed: Printer) -> None:
    """Makes work."""
    project = member_project(args)
    check_batch(args.batch)
    with turn_of(project):
        printed(submit_work(project, plan_of(args, project), args.dry_run, args.link))


def credit_of(args: Arguments) -> float:
    """Returns the credit of each result: what the command line says, or by the hours."""
    if args.credit is not None:
        return float(args.credit)
    credit = round(float(args.hours) * CREDIT_OF_HOUR, 3)
    if credit > MOST_CREDIT:
        says = f"by the hours a result gets more than {MOST_CREDIT:,.0f} credits: give --credit"
        raise Fault(f"--hours {args.hours:g}: {says}")
    return credit


def plan_of(args: Arguments, project: Project) -> Plan:
    """Returns the batch of work that the command line asks for."""
    catalogue = ProjectCatalogue(project)
    application = app_of(catalogue, args.app)
    inputs = inputs_asked(args)
    amounts = Amounts(
        args.hours,
        args.days,
        application.bounds.memory if args.memory is None else args.memory,
        application.bounds.disk if args.disk is None else args.disk,
        args.quorum,
        errors_of(project, args.batch, args.quorum) if args.errors is None else args.errors,
        credit_of(args),
    )
    folder, places = places_of(catalogue, application, inputs)
    plan = Plan(args.batch, application, amounts, inputs, folder, places, args.slice)
    check_sizes(catalogue, plan)
    return plan


def progress(args: Arguments, printed: Printer) -> None:
    """Prints how far the work is."""
    project = member_project(args)
    if not args.watch:
        with tables_of(project) as (look, tables):
            printed([look.moment_line, *lines_now(project, tables, args.batch)])
        return
    signal.signal(signal.SIGINT, lambda _number, _frame: sys.exit(0))
    for screen in screens(project, args.batch):
        print(CLEAR, end="")
        printed(screen)


def say_spoiled(spoiled: list[str]) -> int:
    """Says which files are spoiled, and returns the exit status."""
    for what in spoiled[:MOST_SPOILED]:
        print(f"bsched-tools: {shown(what)}", file=sys.stderr)
    if more := len(spoiled) - MOST_SPOILED:
        if more > 0:
            print(f"bsched-tools: .. and {count_text(more, 'further workunit')}", file=sys.stderr)
    return 1 if spoiled else 0


def feed_batches(args: Arguments, printed: Printer) -> None:
    """Imports further slices of batches."""
    printed(feed(member_project(args)))


def collect(args: Arguments, printed: Printer) -> int:
    """Puts the outputs into a folder. Returns 1 if some could not be collected."""
    project = member_project(args)
    with looked_at(project) as look:
        found = collect_files(project, look, args.batch, args.to, args.link)
        printed(collected_lines(look, found, args.to))
    return say_spoiled(list(found.spoiled.values()))


WORK_COMMANDS: dict[str, Callable[[Arguments, Printer], int | None]] = {
    "app": app,
    "submit": submit,
    "progress": progress,
    "collect": collect,
    "feed": feed_batches,
}
