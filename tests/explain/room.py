"""A room to try the commands in: a copy of them in a folder of its own, with the stand-in in the program's place."""

import glob
import os
import shutil
import signal
import subprocess
import sys
import tempfile
import time

HOME = os.path.dirname(os.path.dirname(os.path.dirname(os.path.abspath(__file__))))
VECTORS = sorted(glob.glob(os.path.join(HOME, "tests", "vectors", "replay", "*.in")))
EXAMPLES = sorted(glob.glob(os.path.join(HOME, "examples", "*.log")))
if not VECTORS or not EXAMPLES:
    raise FileNotFoundError("there are no vectors under tests/vectors/replay, or no logs in examples: the tests would hold of nothing")
CRATES = """# three crates that the replay is made of, and two that it isn't
text:
machine: text
logs: machine
page staticlib: machine
replay: machine io
"""
LONGEST = 120  # seconds that a command may take, also on a machine with much other work


def read(path):
    """The bytes of a file."""
    with open(path, "rb") as file:
        return file.read()


def write_script(path, body):
    """A shell script that may be run."""
    os.makedirs(os.path.dirname(path), exist_ok=True)
    with open(path, "w", encoding="utf-8") as file:
        file.write(f"#!/bin/sh\n{body}\n")
    os.chmod(path, 0o755)


def words_to_run(program):
    """The words that run a program made for x86-64: on another processor the kit's emulator comes before it."""
    if os.uname().machine == "x86_64":
        return [program]
    guide = subprocess.run(["rt", "doc"], capture_output=True, text=True, check=True).stdout.strip()
    kit = os.path.dirname(os.path.dirname(guide))
    return [next(glob.iglob(os.path.join(kit, "on", "**", "qemu-x86_64"), recursive=True)), program]


class Room:
    """The commands in a folder with a blank in its name; a with-statement clears it away."""

    def __enter__(self):
        self.above = tempfile.TemporaryDirectory()
        self.folder = os.path.join(self.above.name, "a room")
        shutil.copytree(os.path.join(HOME, "desk"), os.path.join(self.folder, "desk"))
        for command in ("replay", "explain"):
            shutil.copy(os.path.join(HOME, command), self.folder)
        shutil.copytree(os.path.join(HOME, "examples"), os.path.join(self.folder, "examples"))
        os.makedirs(os.path.join(self.folder, "crates", "replay", "src"))
        with open(os.path.join(self.folder, "crates.txt"), "w", encoding="utf-8") as file:
            file.write(CRATES)
        self.program = os.path.join(self.folder, "target", "native", "replay")
        self.proved = os.path.join(self.folder, "target", "bin", "replay")
        self.stand_in = f'exec "{sys.executable}" -B "{os.path.join(HOME, "tests", "stand_in.py")}"'
        return self

    def __exit__(self, *_):
        self.above.cleanup()

    def place(self, *names):
        """A path in the room."""
        return os.path.join(self.folder, *names)

    def build(self, body=None):
        """Puts the stand-in, or a script of another body, where the built programs stand that run a log."""
        write_script(self.program, body or self.stand_in)
        write_script(self.place("target", "native", "run"), body or f'{self.stand_in} "$@"')

    def put_kit(self, body, name="rt"):
        """A kit whose 'rt' does this, or another command that does it; gives the PATH that has it."""
        write_script(self.place("kit", name), body)
        return f"{self.place('kit')}:{os.environ['PATH']}"

    def path_without(self, command):
        """A PATH with the common commands, but without this one."""
        folder = self.place("commands")
        os.makedirs(folder)
        for name in ("sh", "dirname", "readlink", "find", "head", "cat", "sed", "touch", "rm", "mkdir", "mktemp", "mv", "uname", "python3"):
            if name != command:
                os.symlink(shutil.which(name), os.path.join(folder, name))
        return folder

    def run(self, command, *words, log=b"", path=None, folder=None):
        """Runs one of the commands, from another folder."""
        return subprocess.run([self.place(command), *words], input=log, capture_output=True, env=environment(path),
                              cwd=folder or self.above.name, timeout=LONGEST, check=False)

    def typed(self, line, path=None):
        """Runs a line as it is typed into a shell, in the room."""
        return subprocess.run(["sh", "-c", line], stdin=subprocess.DEVNULL, capture_output=True, env=environment(path),
                              cwd=self.folder, timeout=LONGEST, check=False)

    def start(self, command, *words, path=None, stdin=subprocess.DEVNULL):
        """Starts one of the commands in the room, with a process group of its own, in which Control-C counts."""
        return subprocess.Popen([self.place(command), *words], stdin=stdin, stdout=subprocess.PIPE, stderr=subprocess.PIPE,
                                env=environment(path), cwd=self.folder, start_new_session=True,
                                preexec_fn=lambda: signal.signal(signal.SIGINT, signal.SIG_DFL))

    def wait_for(self, name):
        """What is in a file of the room, once a whole line is."""
        wait_until(lambda: os.path.exists(self.place(name)) and read(self.place(name)).endswith(b"\n"))
        return read(self.place(name))


def wait_until(holds):
    """Waits until something holds, but not for ever; gives whether it does."""
    end = time.monotonic() + LONGEST
    while not holds() and time.monotonic() < end:
        time.sleep(0.01)
    return holds()


def environment(path):
    """The environment, with another PATH if one is given. Python holds its output back, as it does for a user."""
    kept = {name: value for name, value in os.environ.items() if name != "PYTHONUNBUFFERED"}
    return dict(kept, PATH=path) if path else kept


def has_ended(process):
    """Whether there is no such process, or it has ended and was only not asked for."""
    try:
        return read(f"/proc/{process}/stat").rsplit(b")", 1)[1].split()[0] in (b"Z", b"X")
    except (FileNotFoundError, ProcessLookupError):
        return True
