"""Two machines for one project, tried: three small machines of User Mode Linux, and what fails there.

page          the commands of docs/TWO_MACHINES.md and docs/SET_UP.md, and those that programs print
image         the disk from which the machines boot: Debian 12 with the packages
inside        scripts and units of the machines
networks      the networks between the machines, which can be cut
machine       a machine: started, killed, frozen, and its commands
setting_up    the project and the pair, by the commands of the pages
volunteers    clients of the project: they make accounts, upload, report and call
notes         what was acknowledged, noted outside of the machines, and what is missing of it
observing     what the machines say of themselves each second: who serves, and what their disks are
comparing     what the project has, compared with the notes
trial         the machines with the project, and what the events do with them
events        the events, one after the other
negatives     pairs with a wrong setting: the trial must find what they lose
"""
