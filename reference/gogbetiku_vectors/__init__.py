"""The vectors of the folder vectors/, which the reference makes, with their maps and replies.

`python3 -m gogbetiku_vectors FOLDER`, from the folder reference, writes all vectors into a folder, the same octets each
time. Made by the reference alone, never by the proved program. Tested, not proved; no client trusts it.
"""
