"""What the desk's commands share about logs.

lines     what stands in a line of the log, what is wrong with one that is no call, and the replay's answers
layout    what a station is laid out with, and why a layout is refused
outfit    the options for a station of the second edition or with semaphores
station   the reading of a log (docs/MONITOR.md, 14): where each buffer stands, what each process does
fates     what became of each buffer, by a station's own answers, which may be wrong
refusals  the numbers of refusal in words
cures     what spoils a log whole, and its cure
words     one call and its answer as a sentence
alone     one line by itself, whatever log it stands in
replaying a log run by the proved monitor: it goes in and the answers come out piece by piece
serving.c a log served line by line in C: the replay's reading and writing around the monitor, in either edition, with semaphores
run.c     what runs a log where ./replay can't
native    the programs in C that the desk runs: where they stand, and their building by desk/build
passed    a station's own answers where they are passed over
woven     a station's own log, where its answers are told
standard  the standard streams, whatever state they are in, and how a command ends
parser    the words of a command line
"""
