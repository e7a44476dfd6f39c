"""The examples of programs with BOINC's library are built against any BOINC of Debian."""
import shutil
import subprocess
from pathlib import Path

import pytest

EXAMPLES = Path(__file__).resolve().parents[2] / "examples" / "boinc_programs"
# As the header of BOINC 8 has it: a type that it does not declare for C, and what the examples call.
HEADER = """\
extern void boinc_sporadic_dir(SPORADIC_CA_STATE state);
#include "functions.h"
"""
FUNCTIONS = """\
typedef struct { int no_heartbeat, suspended, quit_request, abort_request, exited; } BOINC_STATUS;
typedef struct {
    int main_program, check_heartbeat, handle_trickle_ups, handle_trickle_downs, handle_process_control;
    int send_status_msgs, direct_process_action, normal_thread_priority, multi_thread, multi_process;
} BOINC_OPTIONS;
void boinc_options_defaults(BOINC_OPTIONS *options);
int boinc_init_options(BOINC_OPTIONS *options);
int boinc_init(void);
int boinc_finish(int status);
int boinc_resolve_filename(const char *name, char *path, int length);
int boinc_fraction_done(double fraction);
int boinc_time_to_checkpoint(void);
int boinc_checkpoint_completed(void);
int boinc_send_trickle_up(char *variety, char *text);
int boinc_get_status(BOINC_STATUS *status);
"""


@pytest.fixture
def folder(tmp_path: Path) -> Path:
    """A copy of the examples."""
    copy = tmp_path / "examples"
    shutil.copytree(EXAMPLES, copy, ignore=shutil.ignore_patterns("*_1", "*.so.*"))
    return copy


def compiler(folder: Path, libraries: Path) -> Path:
    """Makes a compiler that says where a library is, and does nothing else."""
    program = folder / "compiler"
    program.write_text(f"#!/bin/sh\necho {libraries}/libboinc_api.so\n")
    program.chmod(0o755)
    return program


@pytest.mark.skipif(shutil.which("make") is None, reason="there is no make")
@pytest.mark.parametrize("number", [7, 8])
def test_the_libraries_have_the_number_of_this_boinc(tmp_path: Path, folder: Path, number: int) -> None:
    libraries = tmp_path / "libraries"
    libraries.mkdir()
    for name in ("libboinc_api", "libboinc"):
        for ending in (".so", f".so.{number}", f".so.{number}.0.4"):
            (libraries / f"{name}{ending}").write_text(name)
    subprocess.run(["make", "-C", folder, "libraries", f"CC={compiler(tmp_path, libraries)}"], check=True)
    assert sorted(path.name for path in folder.glob("*.so*")) == [
        f"libboinc.so.{number}",
        f"libboinc_api.so.{number}",
    ]


@pytest.mark.skipif(shutil.which("make") is None, reason="there is no make")
def test_without_the_libraries_make_fails(tmp_path: Path, folder: Path) -> None:
    none = tmp_path / "none"
    none.mkdir()
    done = subprocess.run(["make", "-C", folder, "libraries", f"CC={compiler(tmp_path, none)}"])
    assert done.returncode == 2


@pytest.mark.skipif(shutil.which("cc") is None, reason="there is no C compiler")
@pytest.mark.parametrize("name", ["primes.c", "wrapper.c"])
def test_the_header_of_boinc_8_is_taken(tmp_path: Path, name: str) -> None:
    (tmp_path / "boinc_api.h").write_text(HEADER)
    (tmp_path / "functions.h").write_text(FUNCTIONS)
    subprocess.run(["cc", "-fsyntax-only", f"-I{tmp_path}", EXAMPLES / name], check=True)
