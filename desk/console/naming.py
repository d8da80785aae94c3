"""The processes of a run by name: which number a line of words means, and what a number is called in words.

Names are those of the layout lines before the first call, as the replay takes them (docs/MONITOR.md, 15). A name counts in any
case, but where several differ in case alone, in its own.
"""

from desk.console.mistakes import Mistake, nearest, shown
from desk.console.tokens import decoded
from desk.log import lines
from desk.log.layout import entry_of, name_bytes, plain_name

SIGNS = set('"#:')  # what ends a word of the language


def plain_word(words):
    """A process's name where it can stand as a word of the language and be taken for nothing else, or None."""
    name = plain_name(words)
    return name if name and not name.isdigit() and not SIGNS & set(name) else None


class Names:
    """The layout so far: its entries, and whether it is done."""

    def __init__(self):
        self.entries, self.laid = [], False
        self.names, self.words = [], {}  # the names' bytes, in order; and by number those that can be said as words

    def take(self, raw, place=None):
        """One more line of the log, at that place of it; gives it as it was read."""
        line = lines.read_line(place, raw, self.laid)
        if line.call and line.call.number == lines.LAYOUT:
            self.entries.append(entry_of(line))
        elif line.call and not self.laid:
            self.lay_out()
        return line

    def lay_out(self):
        """The layout is done: from now on processes have their names."""
        self.laid = True
        self.names = [name_bytes(entry.name).rstrip(b"\0") for entry in self.entries]
        self.words = {number: word for number, entry in enumerate(self.entries, 1)
                      if (word := plain_word(entry.name)) and self.names.count(word.encode()) == 1}

    def so_far(self):
        """The names' bytes, in order, also while the layout goes on."""
        return self.names if self.laid else [name_bytes(entry.name).rstrip(b"\0") for entry in self.entries]

    def said(self, number):
        """What a process is called in words: its name, or its number."""
        return self.words.get(number) or str(number)

    def number_of(self, reference):
        """The number of the process that a line names; raises a Mistake."""
        if reference.name is None:
            return reference.number
        names, asked = self.so_far(), decoded(reference.name)
        found = [number for number, name in enumerate(names, 1) if name == reference.name]
        found = found or [number for number, name in enumerate(names, 1) if decoded(name).casefold() == asked.casefold()]
        if len(found) == 1:
            return found[0]
        if found:
            raise Mistake(reference.column, f"processes {' and '.join(map(str, found))} are both called so; say which by its number.")
        near = nearest(asked, [decoded(name) for name in names])
        there = ", ".join(shown(decoded(name)) for name in names)
        rest = f"the nearest name is {shown(near)}" if near else f"there are {there}" if names else "none is laid out yet"
        raise Mistake(reference.column, f"there is no process '{shown(asked)}'; {rest}.")
