"""What `./run` of a clone does: it makes a trial project in the folder `trial`, and runs it until Ctrl-C.

needs      what it needs from Debian, and how that is installed
terminal   what is said and asked on the terminal, and the signals that come from it
program    the scheduler: a built program, or the plain twin in Python
proof      proving and building the program, with a line for each crate
folder     the files of the project
work       its application, and the jobs
processes  the scheduler and the bridge, which run until the end
client     a BOINC client of its own
session    one run, from the lock of the folder to the end of all programs
command    the command line

`application` has the program that the volunteers' computers run. Only `needs`, `terminal`, `program`,
`proof` and `command` are imported before the packages of Debian are there.
"""
