"""Judges many logs that carry a station's answers, and says what went wrong how often (./survey is its starter).

held.c     a log held to the proved monitor line by line, up to its first stray; held.h
judge.c    the program that does so with one log after the other
settings   what survey.txt and the options set for a log: edition, semaphores, shop and month
files      the logs that files and folders come to
judging    the program run on every core, and its findings in the logs' order
kinds      of which kind a stray is, by the nine lines of docs/MONITOR.md, 14
intervals  the exact interval of a Poisson number
rates      what was watched and seen, and the rates in a person's words
table      the findings as a table, and the rates below it
note       a paragraph for print
written    the findings as CSV and as JSON
chart      the rates as a picture
progress   how far it is, and how long it will still take
options    the words of the command line
command    what they ask for
"""
