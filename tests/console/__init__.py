"""The console's language and command; tests/run-console runs them.

drawing  scripts and logs drawn at random
paged    the page in a browser, led by keys and clicks
picture  the picture of the page in README
room     the command at work in a folder of its own
"""
