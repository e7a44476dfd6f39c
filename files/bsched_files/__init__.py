"""The formats that the bridge and the tools share. Each module has one format, or one thing that several of
them need: its reader, its writer, its number and its defaults. The bridge and the tools import this package,
and it imports neither.

texts, moments        texts of strangers, credit, and moments, as people and other programs read them
faults                what ends a command
programs              how another program is run
command_line          what all command lines have in common
atomic                files that are written whole or not at all
toml_entries          TOML that an operator writes, with the lines of its faults
project_settings      bridge.toml: the settings of a bridge, with their defaults
sqlite_formats        SQLite files whose format is checked by whoever opens them
bridge_state          bridge.db: the tables of the bridge's state file
uploads               uploads.db and its folder, and outputs that name files
catalogue             catalogue.toml: applications, versions and their files, with their defaults
ports                 the ports of a project, in its file environment and in bridge.toml
timers                when the timers of a project's units elapsed last
schemas, tables       the tables of bsched in a copy, opened for reading
project_files         files.toml: the files of a project, their states, and how to reach them
file_names            the names by which clients know workunits and results, which say their file
workunits             what became of a workunit, by the rules of docs/PROFILE.md
copies                copies of SQLite files, and folders of them
json_files            JSON files with the number of their format, and files that are read again
counts                counts.json: how many there are of each thing, and how many there may be
findings              findings.json: what the checks of a project's health found, and how bad it is
operator_state        what a bridge that serves says of itself to `bsched-tools health`
averages              averages.json: recent average credit, with its decay and its keyed digest
plots                 plots.json, and the plots of the last month
news                  a folder of texts: the news of a project
"""
