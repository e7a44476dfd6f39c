"""Messages to bsched.

messages         messages to bsched, and what its answers say
connection       a message over a connection of its own
probe            whether bsched answers
"""
