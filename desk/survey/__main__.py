"""Starts the command, with the packages found above this folder and not in the folder it is called from.

Control-C ends it at once, without Python's own words, until the command itself takes it.
"""

import os
import signal
import sys

if signal.getsignal(signal.SIGINT) != signal.SIG_IGN:
    signal.signal(signal.SIGINT, signal.SIG_DFL)
sys.path[0] = os.path.dirname(os.path.dirname(os.path.dirname(os.path.abspath(__file__))))

from desk.survey.command import main  # noqa: E402  (the path above comes first)

sys.exit(main(sys.argv[1:]))
