"""What the text of a function's body binds, in the order of the MIR's locals: the names of `let`s and of patterns, and None for what a
loop or a `?` binds without a name. As everything in sources.py it gives the C its names and nothing else.
"""
import re

TOKEN = re.compile(r'''//[^\n]*|"(?:\\.|[^"\\])*"|'(?:\\.|[^'\\])'|\d\w*|\w+|=>|::|\.\.=?|->|[-+*/%&|^=<>!]=|&&|\|\||[^\s]''')
OPENING, CLOSING = {'(': ')', '[': ']', '{': '}'}, {')', ']', '}'}


def body_of(rest):
    """Of what stands behind a function's parameters its body: the contract stands before it."""
    start = re.search(r'^\{$', rest, re.M)
    return rest[start.end():] if start else rest[rest.find('{') + 1:]


class Bindings:
    """`found`: each name, or None, and whether a `let` of that name alone binds it."""

    def __init__(self, body):
        self.words = [word for word in TOKEN.findall(body) if not word.startswith('//')]
        self.at, self.found = 0, []
        self.until(())

    def word(self, further=0):
        return self.words[self.at + further] if self.at + further < len(self.words) else ''

    def until(self, stops):
        """Goes through an expression or statements, up to one of these words that stands in no bracket, or to the bracket that closes."""
        while self.word() and self.word() not in stops and self.word() not in CLOSING:
            word = self.word()
            self.at += 1
            if word in OPENING:
                self.until(())
                self.at += 1
            elif word == 'let':
                self.bind(self.pattern(('=', ':')), self.word(-1))
                if self.word() == ':':
                    while self.word() and self.word() != '=':
                        self.at += 1
            elif word == 'for':
                self.loop()
            elif word == 'match':
                self.until(('{',))
                self.arms()
            elif word == '?':
                self.found += [(None, False)] * 2

    def bind(self, words, before):
        names = [word for word in words if word != 'mut']
        self.found += [(name, len(names) == 1 and names[0] == before) for name in bound(words)]

    def pattern(self, stops):
        """The words of a pattern, up to one of these that stands in no bracket."""
        start, depth = self.at, 0
        while self.word() and (depth or self.word() not in stops):
            depth += (self.word() in OPENING) - (self.word() in CLOSING)
            self.at += 1
        return self.words[start:self.at]

    def loop(self):
        """A `for`: one over a slice counts by a local of its own, unless it is asked for the count, and keeps a slice that has no name."""
        names = bound(self.pattern(('in',)))
        start = self.at
        self.until(('{',))
        over, depth, ranges = self.words[start:self.at], 0, False
        for word in over:
            depth += (word == '[') - (word == ']')
            ranges |= word.startswith('..') and depth == 0
        plain = [word for word in over if word not in ('&', 'mut', '.', '(', ')', 'iter', 'iter_mut', 'enumerate', 'rev', 'self')]
        hidden = 0 if ranges else ('enumerate' not in over) + (len(plain) != 1)
        self.found += [(None, False)] * hidden + [(name, False) for name in names]

    def arms(self):
        """The arms of a match, from its opening brace on."""
        self.at += 1
        while self.word() and self.word() != '}':
            self.found += [(name, False) for name in bound(self.pattern(('=>', 'if')))]
            self.until(('=>',))
            self.at += 1
            self.arm()
        self.at += 1

    def arm(self):
        if self.word() == '{':
            self.at += 1
            self.until(())
            self.at += 1
        else:
            self.until((',',))
        if self.word() == ',':
            self.at += 1


def bound(words):
    """The names that a pattern binds."""
    found = []
    for i, word in enumerate(words):
        before, after = words[i - 1] if i else '', words[i + 1] if i + 1 < len(words) else ''
        if re.fullmatch(r'[a-z_]\w*', word) and word not in ('_', 'mut', 'ref', 'true', 'false') and before != '::' and after not in ('::', '(', '{', ':'):
            found += [word] if word not in found else []
    return found
