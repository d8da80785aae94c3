"""Every command delivers its text in one way: a full disk and a closed output are a sentence and exit 2, a reader who has gone is quiet.

The commands run where they stand, on what is built. A stand-in for the disk is the device that is always full.
"""

import os
import subprocess
import unittest

HOME = os.path.dirname(os.path.dirname(os.path.dirname(os.path.abspath(__file__))))
LONGEST = 120  # seconds that a command may take
FULL = "standard output can't be written: No space left on device."
CLOSED = "standard output is closed, so there is nowhere to write."
UNREAD = 141  # how a shell tells the signal for a reader who has gone

SHOPS = "examples/shops/one.log examples/shops/two.log"
COMMANDS = {  # what each command is tried with, besides --help and --version, that writes to standard output
    "replay": ["examples/worked.log"],
    "explain": ["examples/worked.log", "--summary examples/ring.log", "--screen examples/station.log", "--table examples/damaged.table",
                "--json examples/worked.log", "--statistics examples/ring.log", "--trace - examples/worked.log", "--vcd - examples/worked.log"],
    "compare": [SHOPS, f"--all {SHOPS}", f"--numbers {SHOPS}", "--to-monitor examples/shops/two.log"],
    "survey": ["examples/shops", "--csv examples/shops", "--json examples/shops", "--note examples/shops", "--picture - examples/shops"],
    "console": ["examples/words/ring.words", "--words examples/ring.log", "--log - examples/words/ring.words"],
    "station": ["examples/page.txt"],
    "tape": ["9 --table examples/shop.table --rows examples/order.rows"],
    "package": [],
    "test": ["--list"],
}
FOR_X86_64 = ("compare", "tape")  # whose programs run on no other processor


def lines():
    """Each command with each of its words."""
    for command, more in COMMANDS.items():
        runs = os.uname().machine == "x86_64" or command not in FOR_X86_64
        for words in ["--help", "--version", *(more if runs else [])]:
            yield command, f"./{command} {words}"


def typed(line):
    """Runs a line as it is typed into a shell, in the repository's folder."""
    return subprocess.run(["sh", "-c", line], stdin=subprocess.DEVNULL, capture_output=True, cwd=HOME, timeout=LONGEST, check=False)


class StreamsTest(unittest.TestCase):
    """One table of commands, and each state of standard output."""

    def ends(self, line, code, said):
        """The line ends with this code, and says this and nothing else."""
        run = typed(line)
        self.assertEqual((run.returncode, run.stdout, run.stderr.decode()), (code, b"", said), line)

    def test_every_command_is_here(self):
        is_command = lambda name: os.path.isfile(os.path.join(HOME, name)) and os.access(os.path.join(HOME, name), os.X_OK)
        self.assertEqual(sorted(filter(is_command, os.listdir(HOME))), sorted(COMMANDS))

    def test_a_full_disk(self):
        for command, line in lines():
            self.ends(f"{line} >/dev/full", 2, f"{command}: {FULL}\n")

    def test_closed_output(self):
        for command, line in lines():
            self.ends(f"{line} >&-", 2, f"{command}: {CLOSED}\n")

    def test_nobody_reads(self):
        for _, line in lines():
            self.ends(f"{{ {line}; echo $? >&2; }} | true", 0, f"{UNREAD}\n")

    def test_errors_that_nobody_hears(self):
        for _, line in lines():
            for how in ("2>&-", "2>/dev/full"):
                run, heard = typed(f"{line} {how}"), typed(line)
                self.assertEqual((run.returncode, run.stdout), (heard.returncode, heard.stdout), (line, how))
                self.assertTrue(heard.stdout, line)
