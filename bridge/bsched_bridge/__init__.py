"""A bridge between BOINC's client, which speaks XML, and the scheduler `bsched`, which speaks JSON.

`docs/PROFILE.md` states the JSON side. Its section 'Writing a bridge' says what a bridge does with each
element. `bridge/README.md` says how to run the bridge and how to write an application.

gunicorn runs the application, which makes all parts and passes each message to a subpackage:

application      the WSGI application: it makes the parts, and says what answers at each URL
gunicorn_worker  how gunicorn takes connections and sends answers
gunicorn_log     what gunicorn logs

A message goes down through the subpackages. Each imports only those below it, and its head lists its modules:

operator         what the operator sees and does
pages            pages for people
accounts         what volunteers do with accounts and teams
exchange         a call of a client: its request, its answer, and its number
uploads          the files of results, from an upload until they are deleted
catalogue        what clients download, and which files come back
people           users, teams and their computers: what is kept of them, and what is public
requests         what a client's request says, and the texts that follow from it
scheduler        messages to bsched
common           what all others use: HTTP, languages, limits, the state file

The translations are in the folder locale/. The package `bsched_files` has the formats that the tools read or
write, too.
"""
