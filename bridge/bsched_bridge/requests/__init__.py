"""What a client's request says, and the texts that follow from it.

parts            the parts of a request as it arrives: XML, and what programs wrote
client_requests  what a client's XML says
plan_classes     versions for several processors and for coprocessors, as platforms of bsched
descriptions     what computers say of themselves
preferences      what users want of their clients
calls            the JSON text of a call
xml_lines        XML as lines, for replies
"""
