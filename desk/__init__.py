"""The desk: what stands behind the commands that people use, a part for each and what they share.

log      a log of calls: its lines, its layout, the station it tells of, and the words for all of these
explain  ./explain: a log told, summed up, painted and shown
compare  ./compare: two logs beside each other, and a station held to the monitor
survey   ./survey: many logs judged, and the rates of what went wrong
served   the proved monitor at the desk's service: a program that keeps a table and answers requests
table    a table's words told: the station that they show, or why they are no sound table
console  ./console: a station in words, served by the proved monitor; words to logs and logs to words
tape     ./tape, in C: a paper tape and its table, read by the proved input operation

build, beside them, builds the programs in C that the parts run.
"""

import os

HOME = os.path.dirname(os.path.dirname(os.path.abspath(__file__)))  # where the commands stand
