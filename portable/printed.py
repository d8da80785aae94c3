"""The terms that the proofs of a crate's functions are about, as the kit prints them.

`rt check --generated FOLDER` writes a crate's modules into FOLDER. Of those `gathered` keeps the ones that have a function's code and the
symbol that it is called by, one behind the other in one text, each behind a line 'module NAME:'. `Modules` reads such texts: a term is
given as nested lists of words, and a name that a module gives to a part stands for that part.
"""
import re
import sys

from .term import Unknown

TOKEN = re.compile(r'"[^"]*"|[(){},;=]|[^\s(){},;="]+')
USE = re.compile(r'^(?:pub )?use (\S+?)(?:\.\{([^}]*)\})?(?: as (\S+))?$', re.M)
DEFINITION = re.compile(r'^(?:abbrev |unfoldable )?(?:pub )?(\S+) : [^\n]*(?:\n [^\n]*)*\n\1 =(.*?)(?=\n\n|\Z)', re.M | re.S)
LANGUAGE = ('mir.Syntax', 'mir.Table', 'mir.MapTy', 'mathlib.Core.List', 'prog.Wired')
CONS, NIL = '◌∷◌', '[]'
sys.setrecursionlimit(20000)  # a list's rest stands inside it
CALLS = re.compile(r'^calls-(\S+) =\n?\s+calls-(core::\S+)$', re.M)  # a function of the kit's library, by the name that std gives it
LENT = re.compile(r'^pub calls-(core::\S+)', re.M)  # one that goes by its own name
HEADING = re.compile(r'^module (\S+):\n', re.M)
CLOSING = {'(': ')', '{': '}'}


def tuples(parts):
    """Parts between commas: one is itself, more are pairs, the last two innermost."""
    parts = [application(part) for part in parts if part]
    made = parts.pop()
    while parts:
        made = ['pair', parts.pop(), made]
    return made


def application(words):
    return words[0] if len(words) == 1 else list(words)


def parse(text):
    """The term as nested lists of words. A record is the word 'record' and its fields, each [name, term]."""
    stack = [('', [[]])]  # an opening bracket, and what stands inside by commas
    fields = []  # of the records around, those read so far, and the name of the one being read
    for token in TOKEN.findall(text):
        kind, parts = stack[-1]
        if token in CLOSING:
            stack.append((token, [[]]))
            if token == '{':
                if parts[-1] != ['record']:
                    raise Unknown("the MIR has a brace that is no record's.")
                fields.append(([], None))
        elif token in CLOSING.values():
            if CLOSING.get(kind) != token:
                raise Unknown('the MIR has a bracket that is not closed.')
            stack.pop()
            if token == ')':
                stack[-1][1][-1].append(tuples(parts))
            else:
                stack[-1][1][-1][-1:] = [['record', *fields.pop()[0]]]
        elif token == ',' and kind == '(':
            parts.append([])
        elif token == '=' and kind == '{':
            done, _ = fields.pop()
            fields.append((done, application(parts[-1])))
            parts[-1] = []
        elif token == ';' and kind == '{':
            done, name = fields.pop()
            fields.append(([*done, [name, application(parts[-1])]], None))
            parts[-1] = []
        elif token in ',;=':
            raise Unknown("the MIR has '%s' where the translator knows none." % token)
        else:
            parts[-1].append(token)
    if len(stack) != 1 or not stack[0][1][0]:
        raise Unknown('the MIR has a bracket that is not closed.')
    return application(stack[0][1][0])


class Module:
    """A printed module: what its `use` lines name, and the terms of its names."""

    def __init__(self, modules, name, text):
        self.modules, self.name = modules, name
        self.known, self.named, self.terms = {}, {}, {}
        for path, items, called in USE.findall(text):
            if items:
                self.named.update({item.strip(): path for item in items.split(',')})
            else:
                self.known[called or path.split('.')[-1]] = path
        self.texts = dict(DEFINITION.findall(text))

    def term(self, name):
        """What a name of the module stands for, words of the language and nothing else."""
        if name in self.named and name not in self.texts:
            return self.modules[self.named[name]].term(name)
        if name not in self.texts:
            raise Unknown("the module '%s' has no '%s'." % (self.name, name))
        if name not in self.terms:
            self.terms[name] = self.resolved(parse(self.texts[name]))
        return self.terms[name]

    def resolved(self, node):
        """The node with each name that isn't the language's replaced by what it stands for."""
        if isinstance(node, list):
            if node[0] == 'record':
                return ['record', *([name, self.resolved(part)] for name, part in node[1:])]
            return [self.resolved(part) for part in node]
        if node.startswith('"') or node.isdigit() or node == 'pair':
            return node.strip('"')
        module, _, word = node.rpartition('.')
        if not module:
            return self.term(node)
        path = self.known.get(module)
        if path is None:
            raise Unknown("the module '%s' names '%s', and doesn't say what that is." % (self.name, module))
        if path.removeprefix('package.') in LANGUAGE:
            return word
        if path not in self.modules.texts and path.endswith('.Symbol') and word == 'name':
            return self.modules.unprinted(path)
        return self.modules[path].term(word)

    def wired(self):
        """The functions that the module's code puts beside their symbols: each symbol and its term. What they call stands elsewhere."""
        node = parse(self.texts['code'])
        if isinstance(node, str):  # of several functions that call one another: their code has a module of its own
            return
        if len(node) != 4 or node[0] != 'Wired.node':
            raise Unknown("the module '%s' has code that is no node." % self.name)
        rest = node[1]
        while rest != 'List.[]':
            _, (_, symbol, function), rest = rest
            yield self.resolved(symbol), self.readable(function)

    def readable(self, function):
        """The term of a function, or why it can't be had, which is told where the function is wanted."""
        try:
            return self.resolved(function)
        except Unknown as error:
            return ['unreadable', str(error)]


class Modules:
    """The modules of the texts of all crates, read when they are asked for."""

    def __init__(self, texts):
        self.texts, self.read, self.library = {}, {}, {}
        for text in texts:
            self.library.update(CALLS.findall(text))
            self.library.update((name, name) for name in LENT.findall(text))
            _, *parts = HEADING.split(text)
            self.texts.update(zip(parts[::2], parts[1::2]))

    def __getitem__(self, name):
        """The module of a name such as Rattle.tape.proofs.base.moved.Symbol."""
        if name not in self.texts:
            raise Unknown("the kit printed no module '%s'." % name)
        if name not in self.read:
            self.read[name] = Module(self, name, self.texts[name])
        return self.read[name]

    def unprinted(self, path):
        """What is called by the symbol of a module that isn't printed: a function of the kit's libraries."""
        for start, crate in (('Rattle.std.proofs.', 'std'), ('Rattle.std.below.core.proofs.', 'core')):
            name = '::'.join([crate, *path.removeprefix(start).split('.')[:-1]])
            if path.startswith(start) and name in self.library:
                return ['fn', self.library[name]]
        return ['unprinted', path]

    def functions(self, crate):
        """The functions of a crate, by the names of their modules: of each the symbol that it is called by, and its term."""
        for name in sorted(self.texts):
            if name.startswith('Rattle.%s.proofs.' % crate) and name.endswith('.Code') and 'code' in self[name].texts:
                yield from self[name].wired()


def gathered(folder, crate):
    """The text of a crate: the modules with the code and the symbols of its functions, of those that the kit wrote into the folder."""
    for part, names in (('proofs', ('*/Code.antt', '*/Code/*.antt', '*/Symbol.antt')), ('specs', ('contracts/**/Key.antt',))):
        top = folder / ('Rattle-%s-%s' % (crate, part))
        for place in sorted(place for name in names for place in (top.rglob(name) if part == 'proofs' else top.glob(name))):
            name = '.'.join(['Rattle', crate, part, *place.relative_to(top).with_suffix('').parts])
            yield 'module %s:\n%s\n' % (name, place.read_text(encoding='utf-8'))
