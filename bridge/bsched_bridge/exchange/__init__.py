"""A call of a client: its request, its answer, and its number.

messages         a scheduler_request from its bytes to those of its reply
large_calls      a body that comes slowly, from an account that exists
vain_calls       which accounts call too often for nothing
answers          one request and its answer: resends, whose host a client is, what it reads after a refusal
host_search      which host has a result, by bsched's statements
host_states      the numbers of calls, the calls without an answer, and answers that are only in memory
client_replies   the XML of a reply
"""
