"""What `results` prints, as tests read it."""
import csv
import io
import json
from pathlib import Path
from typing import Any

from bsched_tools import results


def rows_of(*paths: Path, **more: Any) -> list[dict[str, str]]:
    """Returns the rows of comma-separated results."""
    file = io.StringIO()
    results.write_results(paths, file=file, **more)
    return list(csv.DictReader(io.StringIO(file.getvalue())))


def lines_of(*paths: Path, **more: Any) -> list[dict[str, Any]]:
    """Returns the lines of results as JSON."""
    file = io.StringIO()
    results.write_results(paths, as_lines=True, file=file, **more)
    return [json.loads(line) for line in file.getvalue().splitlines()]
