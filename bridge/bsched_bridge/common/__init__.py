"""What all others use: HTTP, languages, limits, and the state file.

routes           the URLs, which Werkzeug compares
http_messages    what a browser or a client sends, and what it gets (by Werkzeug)
languages        the language of a reader, and the translations in the folder locale/
limits           how many at once, how often, and for whom a message counts
key_locks        locks by key: one request of a client at a time
host_rules       the settings on hosts, which are read again after each edit
state_file       the state file in SQLite, in which requests and accounts keep their rows
code_signing     code signing as BOINC's client checks it
rights           with whose rights a command of the operator works
words            texts as BOINC's client compares them, and keys as an operator may see them
texts            numbers as people read them
"""
