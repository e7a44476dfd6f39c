"""The doctor, as tests ask it."""
import re
from pathlib import Path

import plain_tables
from small_project import SETTINGS, TOOLS, WORKUNITS, request

from bsched_tools import doctor

STORED_TESTS = TOOLS.parent / "crates" / "bsched" / "src" / "tests" / "stored.rt"


def statements_of(name: str) -> list[str]:
    """Returns the statements of a list in the tests of the program. Each spoils tables in a way that the
    program must refuse."""
    block = STORED_TESTS.read_text().partition(f"const {name}: &[&str] = &[")[2].partition("];")[0]
    return re.findall(r'^    "(.*)",$', block, re.MULTILINE)


def findings_of(path: Path) -> list[str]:
    """Returns what the doctor says about tables."""
    return list(doctor.tables_faults(path))


def short_life(path: Path) -> Path:
    """Makes tables with three users and two workunits. Host 1 has done one of these, and the other waits."""
    plain_tables.create(path, {**SETTINGS, "daily_result_quota": 4})
    tables = plain_tables.Tables(path, synchronous="OFF")
    service = plain_tables.Service(tables)
    service.imported("accounts", "b", "authenticator,name\nk1,Ann\nk2,Bob\nk3,Cid\n")
    service.imported("apps", "b", "name,agreement\ndock,exact\nfold,within:2\n")
    service.imported("versions", "b", "app,platform,version_num\ndock,linux,1\ndock,linux,2\nfold,linux,1\n")
    limits = "1,1,3,6,4,7200,3600000,1000,1000,5000"
    service.imported("workunits", "b", f"{WORKUNITS}\nw1,dock,{limits}\nw2,dock,{limits}\n")
    service.scheduler(request(1, 1, work_req_seconds=1), 1000)
    done = [{"name": "w1_0", "exit_status": 0, "output": "42"}]
    service.scheduler(request(1, 2, results=done), 1001)
    tables.connection.close()
    return path
