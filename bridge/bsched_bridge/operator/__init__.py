"""What the operator sees and does.

overview         all that is known at one moment
board            the same as a page, with forms
metrics          the same for Prometheus
state            what `bsched-tools health` asks for
key              whether a key is the operator's
orders           the operator's commands on accounts
uploads_command  the command `bsched-bridge uploads`: files that are not reported
"""
