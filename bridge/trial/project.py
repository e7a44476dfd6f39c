"""The project of a trial: its files, and the workunits that are imported during the trial."""
import shutil
from pathlib import Path

from .programs import BRIDGE

SETTINGS = """\
daily_result_quota = 100
max_hosts = 100
max_wus_in_progress = 4
max_wus_to_send = 2
operator_key = "change-this-key"
request_delay = 1
resend_lost_results = true
"""
OPERATOR_KEY = "change-this-key"
ACCOUNTS = {"Ann": "ann-key", "Bob": "bob-key"}
IMPORTS = {
    "accounts": "authenticator,name\n" + "".join(f"{key},{name}\n" for name, key in ACCOUNTS.items()),
    "apps": "name,agreement\nsum,exact\n",
    "versions": "app,platform,version_num\nsum,x86_64-pc-linux-gnu,1\n",
}
WORKUNITS = (
    "name,app,min_quorum,target_nresults,max_error_results,max_total_results,max_success_results,"
    "delay_bound,rsc_fpops_est,rsc_memory_bound,rsc_disk_bound,credit\n"
)
# how many seconds a job of each workunit takes
SECONDS = {
    "first": 1,
    "lost": 8,
    "given_up": 5,
    "failing": 60,
    "held": 1,
    "next": 1,
    "last": 12,
    "carol": 1,
    "second": 1,
}
NUMBERS = range(1, 101)


def workunit(name: str, quorum: int, errors: int) -> str:
    """Returns the import of one workunit, which fails after more than this many errors."""
    return (
        f"{WORKUNITS}{name},sum,{quorum},{quorum},{errors},5,4,86400,10000000000,100000000,100000000,5000\n"
    )


def make(folder: Path, url: str, bridge_port: int, scheduler_port: int) -> None:
    """Writes the files of the project."""
    (folder / "settings.toml").write_text(SETTINGS)
    for kind, text in IMPORTS.items():
        (folder / f"{kind}.csv").write_text(text)
    (folder / "files").mkdir()
    shutil.copy(BRIDGE / "example" / "files" / "sum_1", folder / "files")
    (folder / "files" / "numbers.txt").write_text("".join(f"{number}\n" for number in NUMBERS))
    (folder / "bridge.toml").write_text(
        f'vain_seconds = 1000\nname = "Trial"\nurl = "{url}"\nlisten = "127.0.0.1:{bridge_port}"\n'
        f'scheduler = "127.0.0.1:{scheduler_port}"\noperator_key = "{OPERATOR_KEY}"\nhold_back = false\n'
        'catalogue = "catalogue.toml"\nstate = "bridge.db"\nretry_delay = 2\n'
        "\n[accounts]\nmost_a_day = 100\nmost_from_address = 10\n"
    )
    entries = "".join(
        f'\n[[workunit]]\nname = "{name}"\ncommand_line = "--seconds {seconds}"\n'
        'input_files = [{ name = "numbers.txt", open_name = "numbers" }]\n'
        for name, seconds in SECONDS.items()
    )
    (folder / "catalogue.toml").write_text(
        'code_sign_key = "code_sign_public"\nfiles = "files"\n\n[[app]]\nname = "sum"\ntitle = "Sums"\n\n'
        '[[version]]\napp = "sum"\nplatform = "x86_64-pc-linux-gnu"\nversion_num = 1\n'
        f'files = [{{ name = "sum_1", signature = "sum_1.signature", main_program = true }}]\n{entries}'
    )
