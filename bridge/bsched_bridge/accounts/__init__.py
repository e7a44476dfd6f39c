"""What volunteers do with accounts and teams.

messages         what a client asks about accounts, and its answers
actions          accounts are made, found, changed and deleted: checks, limits, and the import into bsched
teams            what users do with teams, and teams by credit and by name
"""
