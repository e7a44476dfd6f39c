"""Two machines for one project: the files of the cluster, the commands that set it up, and what is missing.

pair      the machines, the addresses, the disk and the times, and why a pair of them is not safe
files     the files of DRBD, Corosync, sbd and Pacemaker
units     the units of systemd that a project has
machine   what this machine has: a watchdog, a disk that nothing uses, its own name
steps     the commands that set it up
check     what a machine lacks, and in what it differs from the other one
command   the command `bsched-project pair`
"""
