"""One file of C: the functions that a library's entries reach, callees first, by crates; and the entries over them."""
import copy

from . import kit, liveness
from .arithmetic import Arithmetic
from .body import Body
from .doors import DOORS
from .entries import Entry
from .exits import led
from .instances import Callee, looks_inside, mentions, put_in, read_callee
from .layout import NAME, commented, folded
from .signature import Signature
from .term import Unknown, read_function
from .types import Types


class Translated:
    """A function in C: its lines, and its comment."""

    def __init__(self, function, told, types, arithmetic, signatures, forward):
        self.lines = Body(function, told, types, arithmetic, signatures).lines()
        self.comment = '%s: %s' % (function.name, told.comment) if told and told.comment else str(function.name)
        self.signature = signatures[function.name]
        mentioned = set(NAME.findall('\n'.join(self.lines)))
        if forward:
            self.lines = ['    (void)%s;' % name for name in self.signature.unused(mentioned)] + self.lines
        else:
            self.signature.leave_out(mentioned)


def function_text(comment, head, lines):
    return '%s\n%s\n{\n%s\n}' % (commented(comment), '\n'.join(folded(head, '')), '\n'.join(lines))


class File:
    """The text of a library."""

    def __init__(self, library, programs, sources, headers, checked=False):
        self.library, self.sources, self.headers = library, sources, headers
        self.terms, self.functions, declared = {}, {}, {}
        for terms, kinds in programs:
            for name, term in terms.items():
                if self.terms.setdefault(name, term) != term:
                    raise Unknown("the MIR of two crates has two functions '%s'." % name)
            declared.update(kinds)
        self.types = Types(library.index, declared, sources, [*headers.structures, *headers.prototypes])
        self.arithmetic = Arithmetic(self.types, checked)
        self.roots = ['%s::run' % library.crates[0]] if library.program else [e for c in library.crates for e in sources.entries(c)]
        self.done, self.order, self.signatures, self.forward, self.typed, self.ranks = {}, [], {}, [], {}, {}
        self.share_structures()
        for root in self.roots:
            self.reach(root, ())

    def function(self, name):
        """The function of a name: of a generic one for all types, or with what a call gives put in."""
        if name not in self.functions:
            symbol = getattr(name, 'symbol', name)
            if symbol not in self.terms:
                raise Unknown("the MIR has no function '%s'." % symbol)
            node = self.terms[symbol] if symbol == name else put_in(self.terms[symbol], name.types, name.impls)
            made = read_function(name, node)
            made.body = led(made.body)
            kit.Questions(made)
            for statement in liveness.every(made.body):
                if statement.kind == 'call':
                    statement.parts = (self.meant(read_callee(statement.parts[0])), *statement.parts[1:])
            self.functions[name] = made
        return self.functions[name]

    def meant(self, callee):
        """The function that a call is of: for all types, where that one does."""
        return callee if callee != callee.symbol and self.by_types(callee.symbol) else callee.symbol

    def by_types(self, symbol):
        """Whether a generic function has values of the types that it takes, or calls what its impls have: then there is one for each list."""
        if symbol not in self.terms or symbol in DOORS:
            return False
        if symbol not in self.typed:
            self.typed[symbol] = False  # as long as it is looked at: what calls itself at other types is no reason
            try:
                calls = [s.parts[0] for s in liveness.every(self.function(symbol).body) if s.kind == 'call']
                given = any(mentions([call.types, call.impls]) for call in calls if isinstance(call, Callee))
                self.typed[symbol] = given or looks_inside(self.function(symbol))
            except Unknown:
                self.typed[symbol] = True
        return self.typed[symbol]

    def share_structures(self):
        """Structures that an entry lends or gives, and whose fields the header has in the same types, are the header's own."""
        for root in [] if self.library.program else self.roots:
            function, prototype = self.function(root), self.headers.prototype(root.split('::')[-1])
            kinds = [function.locals[0]] + [k[2] for k in function.locals[1:function.parameters + 1] if k[0] in ('ref', 'slice')]
            declared = [prototype.result] + [kind for kind, _ in prototype.parameters if '*' in kind]
            for kind, text in zip(kinds, declared):
                name = text.replace('const ', '').replace('struct ', '').replace(' *', '')
                fields = self.headers.structures.get(name)
                of = self.types.fields(kind)
                if fields and of is not None and [f for f, _ in fields] == [self.types.c(f) for f in of]:
                    self.types.structures[kind[1]] = (name, [f for _, f in fields])

    def reach(self, name, above):
        """Translates a function behind those it calls; one of several that call each other is declared before them."""
        if name in above:
            if name not in self.forward:
                self.forward.append(name)
            return
        if name in self.done:
            return
        if name in DOORS and self.library.program:
            self.signatures[name] = self.done[name] = DOORS[name]
            self.order.append(name)
            return
        function, told = self.function(name), self.sources.functions.get(getattr(name, 'symbol', name))
        self.signatures[name] = Signature(function, told, self.types, name in self.library.apart)
        calls = [s.parts[0] for s in liveness.every(function.body) if s.kind == 'call' and s.parts[0] not in kit.NUMBERS]
        for callee in calls:
            self.reach(callee, above + (name,))
        self.ranks[name] = max(self.sources.rank(name), *[self.ranks.get(callee, -1) for callee in calls], -1)
        types, arithmetic = (self.types, self.arithmetic) if name not in self.library.wide else self.wide(function)
        self.done[name] = Translated(function, told, types, arithmetic, self.signatures, name in self.forward)
        self.order.append(name)

    def wide(self, function):
        """What a function is translated by in which 64-bit numbers keep their width: it takes none, and what it gives fits an index."""
        if ('int', 64) in function.locals[1:function.parameters + 1] or any(s.kind == 'call' for s in liveness.every(function.body)):
            raise Unknown("'%s' keeps 64 bits, and takes such numbers or hands them on." % function.name)
        types = copy.copy(self.types)
        types.index = 'uint64_t'
        return types, Arithmetic(types)

    def body(self):
        """The functions by crates, in the order of crates.txt; in a crate callees first. One that calls what a later crate's impl has stands there."""
        names = sorted(self.order, key=lambda name: (self.ranks.get(name, self.sources.rank(name)), self.order.index(name)))
        if len({self.signatures[name].name for name in names}) != len(names):
            raise Unknown('two functions of the MIR have one name in C.')
        if self.forward:
            yield '\n'.join(row for name in self.forward for row in folded(self.signatures[name].head() + ';', ''))
        for name in names:
            done = self.done[name]
            yield function_text(done.comment, done.signature.head(), done.lines)

    def entries(self):
        for root in self.roots:
            if self.library.program:
                yield 'int main(void)\n{\n    %s();\n    return 0;\n}' % self.signatures[root].name
                continue
            prototype = self.headers.prototype(root.split('::')[-1])
            entry = Entry(root, prototype, self.function(root), self.types, self.headers)
            yield function_text(*entry.text(self.signatures[root], 'The entry that %s declares.' % prototype.header))
