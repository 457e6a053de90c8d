"""The offsets and widths of headers, of the publications and replies around them, and of desks, in octets.

docs/SPEC.md, 4.3 and 6.1 to 6.4; checks/layout.py compares each number. No client trusts this file.
"""

# a header's fields, from its first octet on; its length, at which the length of its signature follows; and the signature
METHOD, ORDER, FAN, VERSION, NODES, HEADER, SIGNATURE = 4, 5, 6, 8, 16, 104, 106
# the header in a publication, in a range reply, and in an answer
IN_PUBLICATION, IN_RANGE_REPLY, IN_ANSWER = 4, 4, 1
# seed and parameters, which follow the signature of a publication
SETTINGS = 32
# an area's fields, from its gate on: type, `I`, `SEED`, the first slot; and the length of a slot
KIND, NAME, SEED, BLOCK, SLOT = 1, 5, 21, 64, 128
# a slot's fields, from its gate on; and the length of the longest text
LENGTH, TEXT, MOST_TEXT = 1, 2, 126
