"""The project of the trial of files: programs of `examples/boinc_programs`, and their applications."""
import shutil
import subprocess
from pathlib import Path

from .programs import BRIDGE
from .project import ACCOUNTS, SETTINGS

EXAMPLES = BRIDGE.parent / "examples" / "boinc_programs"
PROGRAMS = ("primes_1", "wrapper_1", "count_words")
TEXT = "to be or not to be\n"
PLATFORM = "x86_64-pc-linux-gnu"
# the applications, each with the platform of its version
PLATFORMS = {
    "primes": PLATFORM,
    "words": PLATFORM,
    "talks": PLATFORM,
    "several": f"{PLATFORM}.mt",
    "card": f"{PLATFORM}.fake",
}
APPS = "name,agreement\n" + "".join(f"{name},exact\n" for name in PLATFORMS)
UPLOADS = """
[uploads]
folder = "uploads"
free_bytes = 0
most_bytes = 1_000_000_000
"""
APPLICATIONS = """\
code_sign_key = "code_sign_public"
files = "files"

[[app]]
name = "primes"
title = "Primes"
report_immediately = true
command_line = "--pause {pause}"
input_files = [{{ name = "{{workunit}}.in", open_name = "in" }}]
output_files = [
  {{ open_name = "out", max_nbytes = 100_000 }},
  {{ open_name = "log", max_nbytes = 1000, compare = false }},
  {{ open_name = "notes", max_nbytes = 1000, optional = true }},
]

[[app]]
name = "words"
title = "Words"
command_line = "./count_words"
input_files = [{{ name = "text.txt", open_name = "text" }}]
output_files = [{{ open_name = "counts", max_nbytes = 1000 }}]

[[plan_class]]
name = "mt"
least_ncpus = 2
command_line = "--nthreads {{ncpus}}"

[[plan_class]]
name = "fake"
coproc = "fakegpu"
avg_ncpus = 0.1
speed = 20
"""
# another application that runs `primes_1`
SIMILAR = """
[[app]]
name = "{name}"
command_line = "{words}"
input_files = [{{ name = "{{workunit}}.in", open_name = "in" }}]
output_files = [{{ open_name = "out", max_nbytes = 1000 }}]
"""
VERSION = """
[[version]]
app = "{app}"
platform = "{platform}"
version_num = 1
files = [
  {{ name = "{program}", signature = "{program}.signature", main_program = true }},
{further}]
"""
FURTHER = '  {{ name = "{name}", signature = "{name}.signature"{more} }},\n'


def version(app: str, program: str, *further: str, platform: str) -> str:
    """Returns a version in the catalogue."""
    return VERSION.format(app=app, program=program, platform=platform, further="".join(further))


def further(name: str, more: str = "") -> str:
    """Returns a further file of a version."""
    return FURTHER.format(name=name, more=more)


def libraries() -> list[str]:
    """Returns the names of BOINC's libraries in the folder of the programs. Their number is that of this
    system's BOINC.
    """
    return sorted(path.name for path in EXAMPLES.glob("libboinc*.so.[0-9]"))


def file_names() -> list[str]:
    """Returns the names of all files of the versions, once they are made."""
    return [*PROGRAMS, *libraries()]


def catalogue(pause: int) -> str:
    """Returns the catalogue. Each job of `primes_1` takes a hundred pauses."""
    applications, versions = APPLICATIONS.format(pause=pause), ""
    for name, words in (("talks", " --say a<b"), ("several", ""), ("card", "")):
        applications += SIMILAR.format(name=name, words=f"--pause {pause}{words}")
    for name, platform in PLATFORMS.items():
        program, more = "primes_1", ""
        if name == "words":
            program, more = "wrapper_1", further(
                "count_words", ', executable = true, open_name = "count_words"'
            )
        versions += version(name, program, *map(further, libraries()), more, platform=platform)
    return applications + versions


def make(folder: Path, url: str, bridge_port: int, scheduler_port: int, pause: int) -> None:
    """Writes the files of the project. Each job of `primes` takes a hundred pauses, in milliseconds."""
    subprocess.run(["make", "-s", "-C", EXAMPLES], check=True, timeout=120)
    (folder / "settings.toml").write_text(SETTINGS)
    accounts = "authenticator,name\n" + "".join(f"{key},{name}\n" for name, key in ACCOUNTS.items())
    versions = "app,platform,version_num\n" + "".join(f"{name},{one},1\n" for name, one in PLATFORMS.items())
    for kind, text in (("accounts", accounts), ("apps", APPS), ("versions", versions)):
        (folder / f"{kind}.csv").write_text(text)
    (folder / "files").mkdir()
    for name in file_names():
        shutil.copy(EXAMPLES / name, folder / "files")
    (folder / "files" / "text.txt").write_text(TEXT)
    (folder / "bridge.toml").write_text(
        f'name = "Trial"\nurl = "{url}"\nlisten = "127.0.0.1:{bridge_port}"\n'
        f'scheduler = "127.0.0.1:{scheduler_port}"\noperator_key = "change-this-key"\nhold_back = false\n'
        f'catalogue = "catalogue.toml"\nstate = "bridge.db"\nretry_delay = 2\n{UPLOADS}'
    )
    (folder / "catalogue.toml").write_text(catalogue(pause))
