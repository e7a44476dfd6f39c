"""What the tools and systemd leave for a bridge to read, in the folder of a project of the tests."""
import json
import os
from pathlib import Path

FINDINGS = {
    "moment": 1_000,
    "findings": [
        {"check": "disk", "level": "good", "text": "much"},
        {"check": "disk", "level": "critical", "text": "little is <free>"},
        {"check": "tick", "level": "warning", "text": "late"},
    ],
    "copies": {"count": 2, "oldest": 400, "newest": 900},
}
COUNTS = {"workunits": {"open": 1}, "limits": {"hosts": {"used": 3, "most": 100}, "others": {"used": 1}}}
ELAPSED = {"tick": 700, "copy": 600}  # when timers did
KEYS = 'counts = "units/counts.json"\nhealth = "units/findings.json"\n'  # of the bridge's settings


def write_tool_outputs(folder: Path) -> None:
    """Writes all of them."""
    for name in ("units", "timers"):
        (folder / name).mkdir()
    (folder / "units" / "findings.json").write_text(json.dumps(FINDINGS))
    (folder / "units" / "counts.json").write_text(json.dumps(COUNTS))
    for name, moment in ELAPSED.items():
        stamp = folder / "timers" / f"stamp-bsched-{name}@sums.timer"
        stamp.touch()
        os.utime(stamp, (moment, moment))
