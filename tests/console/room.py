"""./console at work in an empty folder: what it says, what it writes, how it ends."""

import os
import shutil
import subprocess
import tempfile

HOME = os.path.dirname(os.path.dirname(os.path.dirname(os.path.abspath(__file__))))
CONSOLE = os.path.join(HOME, "console")
LONGEST = 120  # seconds that a command may take


class Folder:
    """A folder of its own; a with-statement clears it away."""

    def __enter__(self):
        self.above = tempfile.TemporaryDirectory()
        self.path = self.above.name
        return self

    def __exit__(self, *_):
        self.above.cleanup()

    def place(self, name):
        """A path in the folder."""
        return os.path.join(self.path, name)

    def put(self, name, data):
        """A file in the folder; gives its path."""
        with open(self.place(name), "wb") as file:
            file.write(data if isinstance(data, bytes) else data.encode())
        return self.place(name)

    def get(self, name):
        """The bytes of a file in the folder."""
        with open(self.place(name), "rb") as file:
            return file.read()

    def path_without_clang(self):
        """A PATH with the common commands, but without a compiler for the page."""
        commands = self.place("commands")
        os.makedirs(commands, exist_ok=True)
        for name in ("sh", "dirname", "readlink", "python3", "env", "cat"):
            os.symlink(shutil.which(name), os.path.join(commands, name))
        return commands

    def run(self, *words, typed=b"", **more):
        """Runs the command in the folder, with something on its standard input."""
        return subprocess.run([CONSOLE, *words], input=typed if isinstance(typed, bytes) else typed.encode(), capture_output=True, cwd=self.path,
                              timeout=LONGEST, check=False, **more)
