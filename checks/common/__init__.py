"""Shared by the scripts of checks/: looks, runs of a program, an owner's desk, maps, and `serve` behind two pipes.

A script in a folder of checks/ puts that folder's parent on its path: `sys.path.insert(0, str(Path(__file__).resolve().parents[1]))`.
checks/common/tests.py are its own tests. Nobody trusts it.
"""
