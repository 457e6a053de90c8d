"""The offsets and widths of headers, of the publications and replies around them, and of desks, in octets.

docs/SPEC.md, 4.3 and 6.1 to 6.4; checks/layout.py compares each number. Part of the reference: tested, not proved, and
trusted by no client.
"""

# a header's fields, from its first octet on; its length, at which the length of its signature follows; and the signature
METHOD, ORDER, FAN, ZERO, VERSION, NODES, NODE_ROOT = 4, 5, 6, 7, 8, 16, 20
PAIRS, PAIR_ROOT, FIRST, SECOND, HEADER, SIGNATURE = 52, 56, 88, 96, 104, 106
# the header in a publication, in a range reply, and in an answer
IN_PUBLICATION, IN_RANGE_REPLY, IN_ANSWER = 4, 4, 1
# seed and parameters, which follow the signature of a publication
SETTINGS = 32
# an area's fields, from its gate on: type, `I`, `SEED`, zeros, the first slot; and the length of a slot
KIND, NAME, SEED, SPARE, BLOCK, SLOT = 1, 5, 21, 53, 64, 128
# a slot's fields, from its gate on; and the length of the longest text
LENGTH, TEXT, MOST_TEXT = 1, 2, 126


def behind(octets: bytes, at: int) -> int:
    """The offset behind the signature, if the header begins at this one."""
    return at + SIGNATURE + int.from_bytes(octets[at + HEADER : at + SIGNATURE], "big")


def version_of(octets: bytes, at: int) -> int:
    """The version of the header that begins at this offset."""
    return int.from_bytes(octets[at + VERSION : at + NODES], "big")
