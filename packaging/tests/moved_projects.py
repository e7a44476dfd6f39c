"""Projects with the tools of this clone, which tests move and restore."""
import sys

from project_machine import TOP

TWIN = TOP / "bridge" / "trial" / "twin"
# the tools of this clone; systemctl writes down what it is asked
MORE_STUBS = f"""
bsched() {{ {TWIN} "$@"; }}
bsched-tools() {{ PYTHONPATH={TOP}/tools:{TOP}/files {sys.executable} -m bsched_tools "$@"; }}
bsched-bridge() {{ PYTHONPATH={TOP}/bridge:{TOP}/files {sys.executable} -m bsched_bridge "$@"; }}
systemctl() {{
  echo "$*" >> $PROJECTS/../systemctl
  case "$1 $3" in
    'is-enabled bsched@sums' | 'is-enabled bsched-tick@sums.timer') return 0 ;;
    is-*) return 1 ;;
  esac
}}
"""

MAKE_STATE = """
from pathlib import Path
from bsched_bridge.common.state_file import StateFile
StateFile(Path("bridge.db")).close()
"""
