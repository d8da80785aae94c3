"""Starts the command, with the packages found above this folder and not in the folder it is called from."""

import os
import sys

sys.path[0] = os.path.dirname(os.path.dirname(os.path.dirname(os.path.abspath(__file__))))

from desk.compare.command import main  # noqa: E402  (the path above comes first)

sys.exit(main(sys.argv[1:]))
