"""Compares two logs, or a station's log with the monitor, and tells a person where they differ (./compare is its starter).

compare.c  the comparison itself, a thin program over the proved archive
build      builds that program where it is missing or old
program    runs it, and takes its rows apart
beside     two lines that differ, beside each other in words; what runs on
calls      logs that carry answers, call by call
strays     one call whose answers are others than they should be, in words
pairs      two stations' logs that carry answers, compared call by call
monitor    a log that carries a station's answers, held to the proved monitor's
command    the words of the command line
"""
