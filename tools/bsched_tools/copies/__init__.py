"""Copies of the tables, which are made while a program serves them. No module here knows one outside.

copying          how a copy is made: the whole way, with its checks
taking           the bytes of the tables at one moment
holders          which process has the tables
stopping         how that process is stopped for a moment
folder           a folder of copies: whose turn it is, how a copy gets its name, and which older ones go
listing          the copies in a folder, as an operator sees them
faults           what ends a step of a copy
"""
