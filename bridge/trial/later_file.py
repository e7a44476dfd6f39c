"""Runs the bridge as if bsched served a later file of the project.

usage: python3 -m trial.later_file NUMBER --config bridge.toml
"""
import sys
from functools import partial

from bsched_bridge import __main__ as command
from bsched_bridge import application
from bsched_bridge.scheduler.messages import Scheduler

if __name__ == "__main__":
    number = int(sys.argv.pop(1))
    setattr(application, "Scheduler", partial(Scheduler, file=number))
    sys.exit(command.main())
