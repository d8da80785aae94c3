"""Tests of the archive that compares, and of ./compare; tests/run-compare runs them.

archive  the archive, called through call.c, and the comparison written a second time
room     a room to try ./compare in
"""
