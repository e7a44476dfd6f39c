"""What all tests of the repository share: the settings of hypothesis, and signals that are not ignored. Each
process of a parallel run has a part of the free ports.
"""
import os
import signal
from pathlib import Path

import pytest
import served
from hypothesis import HealthCheck, settings

TOP = Path(__file__).resolve().parent

os.environ["HYPOTHESIS_STORAGE_DIRECTORY"] = str(TOP / ".pytest_cache" / "hypothesis")
# A busy machine may take any time for an example, and how large examples are is chance.
HEALTH = (HealthCheck.too_slow, HealthCheck.data_too_large)
settings.register_profile("without deadlines", deadline=None, suppress_health_check=HEALTH)
settings.load_profile("without deadlines")


def pass_over(_number: int, _frame: object) -> None:
    """Does nothing about a signal."""


# A program inherits which signals are ignored, as they are for a job in the background and under nohup. It
# inherits no handler. So the programs that tests start get each signal as usual.
for each in (signal.SIGHUP, signal.SIGINT, signal.SIGQUIT, signal.SIGTERM):
    if signal.getsignal(each) is signal.SIG_IGN:
        signal.signal(each, pass_over)

# pytest-xdist calls the processes in which it runs tests gw0, gw1 and so on.
WORKER = os.environ.get("PYTEST_XDIST_WORKER")
if WORKER is not None:
    count, number = int(os.environ["PYTEST_XDIST_WORKER_COUNT"]), int(WORKER.removeprefix("gw"))
    served.RETURNED.update(port for port in served.PORTS if port % count != number)


@pytest.fixture(scope="session", autouse=True)
def enterable_folder(tmp_path_factory: pytest.TempPathFactory) -> None:
    """Lets other users enter the folder of all tests, since some tests work as another user."""
    folder = tmp_path_factory.getbasetemp()
    folder.chmod(0o755)
    if WORKER is not None:
        folder.parent.chmod(0o755)
