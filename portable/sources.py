"""What the crates' own text says of a function or a structure, for a person who reads the C: names of parameters, of `let`s and of
fields, and the first sentence of the comment. A wrong name here can't make a wrong program: the C's meaning is the MIR's alone.
"""
import re
import textwrap

from .bindings import Bindings, body_of

FUNCTION = re.compile(r'((?:^//[^\n]*\n)*)((?:^#\[[^\n]*\]\n)*)^(?:pub(?:\(\w+\))? )?(?:extern "C" )?fn (\w+)(?:<[^>]*>)?\(([^)]*)\)(.*?)^}$', re.M | re.S)
METHODS = re.compile(r'^impl(?:<[^>]*>)? (\w+)(?:<[^>]*>)? \{\n(.*?)^}$', re.M | re.S)
STRUCTURE = re.compile(r'((?:^//[^\n]*\n)*)(?:^#\[[^\n]*\]\n)*^(?:pub(?:\(\w+\))? )?struct (\w+)(?:<[^>]*>)? \{\n(.*?)^}$', re.M | re.S)
ENUM = re.compile(r'((?:^//[^\n]*\n)*)(?:^#\[[^\n]*\]\n)*^(?:pub(?:\(\w+\))? )?enum (\w+)(?:<[^>]*>)? \{\n(.*?)^}$', re.M | re.S)
VARIANT = re.compile(r'^ {4}(\w+)(?:\(((?:[^()]|\([^()]*\))*)\)|\s*\{([^{}]*)\})?(?:,| =|$)', re.M)
CRATE = re.compile(r'^(\w+)[^:#\n]*:([^#\n]*)', re.M)  # crates.txt: a crate, and the libraries that it uses


class Told:
    """What the text says of one function."""

    def __init__(self, comment, entry, parameters, bound, words):
        """`bound`: the names that the body binds, in the order of the MIR's locals, each with whether a `let` of it alone does."""
        self.comment, self.entry, self.parameters, self.words = comment, entry, parameters, words
        self.bound, self.lets = [name for name, _ in bound], [i for i, (_, alone) in enumerate(bound) if alone]


def sentence(comment):
    """The first sentence of a comment's lines."""
    text = ' '.join(line.lstrip('/').strip() for line in comment.splitlines())
    return re.split(r'(?<=[.!?])\s', text)[0].rstrip(':').replace('*/', '')


def words_of(place):
    """A path of a file in crates/NAME/src as the MIR writes it: trap, trap::waiting."""
    crate, parts = place.parts[-3], [place.stem]
    return '::'.join([crate] + [part for part in parts if part not in ('lib', 'main')])


def read_functions(text, module, functions):
    for comment, mark, name, parameters, rest in FUNCTION.findall(text):
        parts = [part.strip() for part in re.split(r',\s*(?![^\[]*\])', parameters.strip())]
        own = ['self'] if re.fullmatch(r'(&\s*)?(mut\s+)?self', parts[0]) else []
        pairs = [part.split(':', 1) for part in parts if ':' in part]
        functions[module + '::' + name] = Told(
            sentence(comment), 'no_mangle' in mark, own + [p.removeprefix('mut ').strip() for p, _ in pairs], Bindings(body_of(rest)).found,
            [t.strip() for _, t in pairs])


def variants(body):
    """The variants of an enum, each with its fields' names: numbers, where it has them by their places."""
    found = []
    for name, places, named in VARIANT.findall(re.sub(r'//[^\n]*', '', body)):
        amount = len([part for part in re.split(r',\s*(?![^<(\[]*[>)\]])', places) if part.strip()])
        found.append((name, re.findall(r'(\w+)\s*:(?!:)', named) if named else list(map(str, range(amount)))))
    return found


def read_file(place, functions, structures, enums):
    text, module = place.read_text(encoding='utf-8'), words_of(place)
    read_functions(text, module, functions)
    for kind, body in METHODS.findall(text):
        read_functions(textwrap.dedent(body), '%s::%s' % (module, kind), functions)
    for comment, name, body in STRUCTURE.findall(text):
        structures[module + '::' + name] = (sentence(comment), re.findall(r'^\s+(?:pub(?:\([^)]*\))? )?(\w+):', body, re.M))
    for comment, name, body in ENUM.findall(text):
        enums[module + '::' + name] = (sentence(comment), variants(body))


class Sources:
    """The text of all crates: their order (as crates.txt has it), their functions, their structures and their enums."""

    def __init__(self, home):
        self.functions, self.structures, self.enums = {}, {}, {}
        self.uses = {name: rest.split() for name, rest in CRATE.findall((home / 'crates.txt').read_text())}
        self.order = list(self.uses)
        for place in sorted(home.glob('crates/*/src/*.rt')):
            read_file(place, self.functions, self.structures, self.enums)

    def below(self, crates):
        """These crates and those that they rest on, the kit's left out, in the order of crates.txt."""
        found, left = set(), list(crates)
        while left:
            crate = left.pop()
            if crate in self.uses and crate not in found:
                found.add(crate)
                left += self.uses[crate]
        return [crate for crate in self.order if crate in found]

    def entries(self, crate):
        """The functions of a crate that C may call, in the order of its files."""
        return [name for name, told in self.functions.items() if told.entry and name.split('::')[0] == crate]

    def rank(self, name):
        """Where a function's crate stands among the crates; those of the kit's own come before all."""
        crate = name.split('::')[0]
        return self.order.index(crate) if crate in self.order else -1
