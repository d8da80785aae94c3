"""Tells a log of calls and the replay's answers in a person's words (./explain is its starter).

faults    lines that are no calls: those that repeat told as one, and the cure
stuck     who is stuck behind whom at the log's end
rings     at which call a ring of waiting processes closes, and at which it is gone
waits     who waits for whom at one moment, as a drawing
summary   the closing summary
filters   which lines are told
progress  how far it is, and how long it will still take
screen    the run as an operator's console shows it
keys      the keys that pause a screen, step and go back
timeline  the stretches of a run during which nothing changed
strips    the timeline cut into strips, and these placed on sheets
looks     letters, bars and arrows, as SVG
picture   the sheets as SVG pictures
page      summary, told log and picture as one page for a browser, with page.css and page.js
statistics  what a run comes to in numbers
objects   a log told for other programs, a line of JSON for each line
moments   a run as moments: each call with its time, and what it changed
trace     a run in the trace event format, for Perfetto
vcd       a run as signals, for GTKWave
exports   the options for these, and their files
canvas    the files that pictures and pages are put in, and which these may not be
telling   a whole log, line by line
rows      a telling on standard output
options   the words of the command line
command   what they ask for
"""
