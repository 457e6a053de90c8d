"""A second implementation of Gogbetiku, in plain Python with only its standard library.

It says in words that can be run what docs/SPEC.md and RFC 8554 say: read it beside them, check a
client of your own against it, or doubt the proved program with it. It was written from these texts, and no line of it
from the program. It is tested and not proved, it is slow, and it knows no crash of a disk: no client trusts it, and no
owner signs with it. `python3 -m gogbetiku_reference help`, from the folder reference, lists its commands.

Each module names the sections that it follows. From the ground up: octets, faults; hashing, maps, walks, road_files,
dimacs, draws; leaves, trees, lms, chains, headers, replies, publications; orders, landmarks, cells, books; judges,
clients; servers, frames, desks, audits, reductions, surveys; lines, codes, commands.
"""
