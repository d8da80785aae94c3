"""The lines of a function: statements inside one another, declarations put where they are first needed, and the text with its indents."""
import re
import textwrap

NAME = re.compile(r'(?<![.>\w])[a-z]\w*')
WIDTH = 120
BREAKS = (', ', ' && ', ' || ', ' = ')


def folded(line, indent):
    """A line, or the lines that a long one is broken into: behind a comma or a sign, or where neither is behind the bracket of a call."""
    if len(indent) + len(line) <= WIDTH - 4:
        return [indent + line]
    places = [line.rfind(sign, 0, WIDTH - len(indent)) + len(sign) for sign in BREAKS if sign in line[:WIDTH - len(indent)]]
    calls = [found.end() for found in re.finditer(r'\w\(', line[:WIDTH - len(indent)])]
    place = max(places or calls, default=len(line))
    if place == len(line):
        return [indent + line]
    rows = [indent + line[:place].rstrip()]
    return rows + ['    ' + row for row in folded(line[place:], indent)]


def commented(text):
    lines = textwrap.wrap(text, WIDTH - 6, break_long_words=False, break_on_hyphens=False)
    return '/* ' + '\n * '.join(lines) + ' */'


class Line:
    """One statement; `sets` is the variable that it gives a value as `sets = ..`, if it does nothing else to it."""

    def __init__(self, text, sets=None):
        self.text, self.sets = text, sets

    def mentions(self, name):
        return name in NAME.findall(self.text)

    def written(self, depth):
        return [row for line in self.text.split('\n') for row in folded(line, '    ' * depth)]


class Group:
    """Statements in braces behind a head. A loop's `leads` are the MIR's loop and the block around it."""

    def __init__(self, *parts, loop=False, leads=(None, None)):
        self.parts, self.loop, self.leads = list(parts), loop, leads

    def mentions(self, name):
        return any(name in NAME.findall(head) or any(node.mentions(name) for node in body) for head, body in self.parts)

    def written(self, depth):
        lines = []
        for i, (head, body) in enumerate(self.parts):
            lines += folded(('} ' if i else '') + head + ' {', '    ' * depth)
            for node in body:
                lines += node.written(depth + 1)
        return lines + ['    ' * depth + '}']


class Choice(Group):
    """Branches, each with its test and its lines: the first whose test holds; the last may have none, and is then taken where no other is.
    `chained`: another choice that is all of the last branch goes on in this one."""

    def __init__(self, branches, chained=False):
        super().__init__()
        self.branches, self.chained = branches, chained

    @property
    def parts(self):
        heads = ['if (%s)' % test.text if test else '' for test, _ in self.branches]
        return [(head if i == 0 else 'else ' + head if head else 'else', body) for i, (head, (_, body)) in enumerate(zip(heads, self.branches))]

    @parts.setter
    def parts(self, _):
        pass


class Leave(Line):
    """An exit to the end of a block, or to a loop's next round; `straight` gives it its text."""

    def __init__(self, target):
        super().__init__('')
        self.target = target


class Label(Line):
    """Where the exits to a block's end, or to a loop's next round, lead."""

    def __init__(self, target):
        super().__init__('')
        self.target = target

    def written(self, depth):
        return ['    ' * (depth - 1) + self.text]


def inner(node, name):
    """The part of a group in which alone a variable is mentioned, and may be declared: a loop's only if it is set there first."""
    if not isinstance(node, Group) or any(name in NAME.findall(head) for head, _ in node.parts):
        return None
    bodies = [body for _, body in node.parts if any(inside.mentions(name) for inside in body)]
    if len(bodies) != 1:
        return None
    first = next(inside for inside in bodies[0] if inside.mentions(name))
    return None if node.loop and getattr(first, 'sets', None) != name else bodies[0]


def declare(nodes, name, kind, suffix=''):
    """Declares a variable in the narrowest list of statements that has all its mentions."""
    found = [i for i, node in enumerate(nodes) if node.mentions(name)]
    if not found:
        return
    body = inner(nodes[found[0]], name) if len(found) == 1 else None
    if body is not None:
        declare(body, name, kind, suffix)
        return
    first, space = nodes[found[0]], '' if kind.endswith('*') else ' '
    if getattr(first, 'sets', None) == name and not suffix:
        first.text, first.sets = kind + space + first.text, None
    else:
        nodes.insert(found[0], Line('%s%s%s%s;' % (kind, space, name, suffix)))


def written(nodes, depth=1):
    return [line for node in nodes for line in node.written(depth)]
