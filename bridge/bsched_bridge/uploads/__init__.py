"""The files of results, from an upload until they are deleted.

messages           the messages by which a client uploads a file
tokens             who may upload a file
owners             whose a file is, and whether it may still come
room               the room on the disk, in the folder, and of each account and host
store              the files on the disk
tables             the rows of the files, in SQLite
handed_out         the jobs that went out, with their files
report_checks      whether a reported result has its files
digest_queue       when digest programs run, and for whom
current_catalogue  the catalogue after the last edit, which must fit the settings of uploads
sweep              what the daily sweep deletes
sweep_command      the command `bsched-bridge sweep`
"""
