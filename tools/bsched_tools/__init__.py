"""Tools for the operator of a project: copies while it serves, results, counts, and why a file is refused.

All commands but `copy`, `copies`, `doctor` and `import` read a copy of the tables. Nothing here writes the
tables: `import`, `app` and `submit` ask the scheduler, or run bsched. The package `bsched_files` has the
formats that the bridge reads or writes, too. The modules:

results, cursors                the results of workunits, and which were given out before
process                         new results for a program of the operator
texts                           texts of strangers, as they are shown in a line, in a spreadsheet and in JSON
uploaded, placing               the output files of canonical results, and how they get into a folder
jobs                            what happened to one workunit, and what one computer did
stuck, computers                open workunits that nobody can take, and computers with many bad results
counts                          how many there are of each thing
users                           users and their hosts over several files
averages, exports               recent average credit, and the files that statistics sites read
history, page_facts             what earlier reports counted, and what the page says of the tables
page, plots                     the page, and how it is drawn
month_plots                     the plots of the last month for the bridge
checks, settings_file, doctor   why bsched refuses a file
start_times                     how long a start takes, and whether a process is still at it
projects, volunteers            a project's folder, and which users agreed to be named, and how
root_folders                    folders that root makes for a project
import_files, imports           files that are imported: what is wrong with them, and how they are sent
catalogue_file, apps            the catalogue of the bridge, and how an application or a version is added
project_access                  who may use a project, whether its scheduler answers, and a copy for one look
amounts, inputs                 amounts as a person writes them, and what a batch of work is made of
submitting                      a batch of work: its record, its staged inputs, and its imports
slices                          batches that are imported a slice at a time
progress, collecting            how far the work is, and its outputs in a folder
watching                        how far the work is, once or on a screen that stays
progress_bars                   progress bars on a terminal
health                          what answers, and what is old or nearly full
answers, bridge_state           what answers over HTTP, and what the bridge says of itself
comparing                       whether the bridge's files are what they should be, a part in each run
pairs, replica                  which of two machines has a project, and whether both have its disk
news                            news for volunteers: how it is added and withdrawn
mailing                         mail about what changed in them
command_line                    the arguments of the command line
work_options, work_commands     the commands that make work: their arguments, and what they do

A subpackage, which imports nothing above it:

copies                          copies of the tables, which are made while a program serves them
"""
