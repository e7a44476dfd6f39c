"""Attacks on a bridge behind nginx and gunicorn, for `bridge/try_attacks`.

figures      what an attack may cost, what it did cost, and the comparison
target       the project that is attacked, and what is measured of its programs
volunteers   honest volunteers, who call, upload and look at pages meanwhile
attack       an attack: who attacks, what it does, and what it may cost
sending      how attackers send messages
strangers, forms, members, computers, files, memory, storage, operators
             the attacks, by who does them or what they are about
table        the list of all attacks
runs         does an attack, and measures it
"""
