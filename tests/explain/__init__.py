"""The tests of ./replay and ./explain; tests/run-explain runs them.

room     a room to try the commands in
runs     long runs to draw
browser  a real browser, led by the tests
schema   holds values to a JSON schema
"""
