"""The command line of the bridge."""
import argparse
import logging
import sys
from pathlib import Path

import waitress

from bsched_files.command_line import CommandLine, version
from bsched_files.faults import Fault
from bsched_files.ports import MOST_PORT, Ports, is_port, set_ports
from bsched_files.project_settings import PRINTED, Settings, most_upload, printed, read_settings
from bsched_files.toml_entries import OperatorFault, OperatorFile

from .application import UPLOADS_WAITING, new_application
from .catalogue.contents import App, read_catalogue
from .catalogue.digest_programs import DigestFault, DigestProgram, check_digest, tried_on_odd_files
from .common.code_signing import KeyFault, file_md5, read_private_key, signature_text, write_new_keys
from .common.state_file import StateFault
from .operator import uploads_command
from .operator.orders import ORDERS, OrderFault, add_orders, run_order
from .requests import client_requests
from .scheduler.messages import WRONG_KEY, NoAnswer, Scheduler
from .uploads import sweep_command
from .uploads.store import check_uploads

FAULT = 1
SET_PORTS = "gives the project of the settings another port of the scheduler, and another one of the bridge"
MOST_CONNECTIONS = 1000


def command_parser() -> argparse.ArgumentParser:
    """Returns the parser of the command line."""
    parser = CommandLine(prog="bsched-bridge", description="A bridge between BOINC's client and bsched.")
    parser.add_argument("--config", type=Path, metavar="FILE", help="the settings (TOML); serves them")
    parser.add_argument("--version", action="version", version=f"bsched-bridge {version()}")
    parser.add_argument("--check", action="store_true", help="only checks the settings and the catalogue")
    parser.add_argument("--without-digests", action="store_true", help="--check runs no digest program")
    parser.add_argument("--catalogue", type=Path, metavar="FILE", help="--check takes it for the catalogue")
    parser.add_argument("--print", nargs="+", choices=PRINTED, dest="printed", help="prints some settings")
    parser.add_argument("--set-ports", nargs=2, type=port, metavar="PORT", help=SET_PORTS)
    orders = parser.add_subparsers(dest="order", metavar="ORDER")
    keygen = orders.add_parser("keygen", help="makes a pair of keys for code signing")
    keygen.add_argument("--private", type=Path, default=Path("code_sign_private"), metavar="FILE")
    keygen.add_argument("--public", type=Path, default=Path("code_sign_public"), metavar="FILE")
    sign = orders.add_parser("sign", help="prints the signature of a file")
    sign.add_argument("file", type=Path, metavar="FILE")
    sweep = orders.add_parser("sweep", help="deletes uploads that nobody needs; the bridge may serve")
    sweep.add_argument("--config", type=Path, required=True, metavar="FILE", dest="swept")
    sweep.add_argument(
        "--tables",
        type=Path,
        nargs="+",
        default=[],
        metavar="COPY",
        help="copies of the tables, or folders of copies; without them reported results keep their files",
    )
    sign.add_argument("--key", type=Path, required=True, metavar="KEY", help="the private key")
    add_orders(orders)
    uploads_command.add_uploads(orders)
    return parser


def port(text: str) -> int:
    """Reads the number of a port."""
    if not is_port(text):
        raise argparse.ArgumentTypeError(f"{text!r} is no port: write a number from 1 to {MOST_PORT}")
    return int(text)


def check_scheduler(path: Path, settings: Settings) -> None:
    """Asks the scheduler whether it knows the key in the settings. It is a fault if it does not; if nobody
    answers, a line says so.
    """
    key, address = settings.operator_key, settings.scheduler
    if key is None:
        return
    place = f"the scheduler at {address.host}:{address.port}"
    try:
        if not Scheduler(address, settings.answer_seconds).knows_key(key):
            OperatorFile(path).fault(f"{place} {WRONG_KEY}", "operator_key")
        print(f"{place} knows operator_key")
    except NoAnswer as failure:
        print(f"{place} gives no answer ({failure}), so operator_key was not compared")


def check_digest_of(app: App, program: DigestProgram, with_odd_files: bool) -> None:
    """Checks the digest program of an application, and prints what it does with its example, and with odd
    files.
    """
    try:
        text = check_digest(program, app.output_files)
    except DigestFault as fault:
        raise OperatorFault(program.path, None, str(fault)) from None
    if text is not None:
        print(f"the digest program of {app.name} prints {text!r} for its example, twice")
    if with_odd_files:
        for line in tried_on_odd_files(program, app.output_files):
            print(f"the digest program of {app.name}, {line}")


def check(path: Path, other_catalogue: Path | None, has_digests: bool) -> None:
    """Checks the settings of a file and their catalogue, or another one, maybe with its digest programs."""
    settings = read_settings(path)
    catalogue = read_catalogue(other_catalogue or settings.catalogue)
    check_uploads(settings, catalogue)
    for app in catalogue.apps.values():
        if app.digest is not None and has_digests:
            check_digest_of(app, app.digest, with_odd_files=other_catalogue is None)
    counts = len(catalogue.apps), len(catalogue.versions), len(catalogue.works)
    print("good: {} applications, {} versions, {} workunits".format(*counts))
    if settings.accounts is not None:
        limits = settings.accounts.most_a_day, settings.accounts.most_from_address
        print("volunteers make accounts: at most {} a day, {} from one address".format(*limits))
    check_scheduler(path, settings)


def largest_body(settings: Settings) -> int:
    """Returns how many bytes a message may have."""
    uploads = settings.uploads
    return max(client_requests.MOST_BYTES, 0 if uploads is None else most_upload(uploads.most_result_bytes))


def serve(path: Path) -> None:
    """Serves the settings of a file with waitress until it is stopped."""
    settings = read_settings(path)
    application = new_application(path)
    print(f"serving {settings.url} on {settings.listen.host}:{settings.listen.port}", flush=True)
    waitress.serve(
        application,
        host=settings.listen.host,
        port=settings.listen.port,
        threads=settings.threads + UPLOADS_WAITING,
        connection_limit=MOST_CONNECTIONS,
        max_request_body_size=largest_body(settings),
        ident="bsched_bridge",
        clear_untrusted_proxy_headers=False,  # by them it sees what a proxy passes on
    )


def main() -> int:
    """Does what the command line says, and returns the exit status."""
    parser = command_parser()
    args = parser.parse_args()
    logging.basicConfig(level=logging.INFO, format="%(asctime)s %(levelname)s %(name)s: %(message)s")
    try:
        if args.order == "keygen":
            write_new_keys(args.private, args.public)
        elif args.order == "sign":
            print(signature_text(file_md5(args.file), read_private_key(args.key.read_text())), end="")
        elif args.order == "sweep":
            print(sweep_command.run(args.swept, args.tables))
        elif args.order == "uploads":
            uploads_command.run(args)
        elif args.order in ORDERS:
            run_order(args)
        elif args.config is None:
            parser.error("--config FILE or a command is needed: see --help")
        elif args.printed is not None:
            print("\n".join(printed(args.config, args.printed)))
        elif args.set_ports is not None:
            set_ports(args.config.absolute().parent.parent, Ports(*args.set_ports))
        elif args.check:
            check(args.config, args.catalogue, not args.without_digests)
        else:
            serve(args.config)
    except (Fault, StateFault, OrderFault) as fault:
        print(f"bsched-bridge: {fault}", file=sys.stderr)
        return FAULT
    except KeyFault as fault:
        print(f"bsched-bridge: {args.key} {fault}", file=sys.stderr)
        return FAULT
    except FileExistsError as error:
        print(f"bsched-bridge: {error.filename} exists, and is not replaced", file=sys.stderr)
        return FAULT
    except OSError as error:
        where = f"{error.filename}: " if error.filename else ""
        print(f"bsched-bridge: {where}{error.strerror or error}", file=sys.stderr)
        return FAULT
    except UnicodeDecodeError as error:
        print(f"bsched-bridge: {args.key} is not text: {error}", file=sys.stderr)
        return FAULT
    return 0


if __name__ == "__main__":
    sys.exit(main())
