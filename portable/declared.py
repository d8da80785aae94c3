"""The types that a library declares in C, from those that the crates and the kit's library declare: a structure's fields; an enum's tag and
the fields of each of its variants, one behind the other; and one structure for each list of types that a type such as Option is given.
"""
import re

from .instances import spelled
from .layout import WIDTH, commented
from .term import Unknown

# What the kit's library calls the variants and fields of its types; as of the crates' own, only names of the C come of it.
LIBRARY = {'core::option::Option': [('None', []), ('Some', ['0'])], 'core::result::Result': [('Ok', ['0']), ('Err', ['0'])],
           'core::cmp::Ordering': [('Less', []), ('Equal', []), ('Greater', [])]}
PLACES = ('first', 'second', 'third', 'fourth')
HINTS = {8: 'byte', 16: 'word', 32: 'number', 64: 'count'}
KEYWORDS = set('''auto break case char const continue default do double else enum extern float for goto if inline int long register restrict
return short signed sizeof static struct switch typedef union unsigned void volatile while bool true false main index_sum index_difference
index_product'''.split())


def c_name(name):
    """A name of the MIR in C: table::running::behind is table_running_behind. Of one of the kit's library the end is enough."""
    if name.startswith('core::'):
        name = '::'.join(name.split('::')[1:][-2 if name.split('::')[-1].islower() else -1:])
    return re.sub(r'\W+', '_', name).lower()


def snake(name):
    """A variant's name as C has it: OutOfMemory is out_of_memory."""
    return c_name(re.sub(r'(?<=[a-z0-9])(?=[A-Z])', '_', name))


def put(kind, given):
    """A type of a declared type's fields, with the types that a use gives it for its parameters."""
    if kind[0] == 'param':
        return given[kind[1]]
    return tuple(put(part, given) if isinstance(part, tuple) and part and isinstance(part[0], str) else
                 tuple(put(one, given) for one in part) if isinstance(part, tuple) else part for part in kind)


class Declared:
    """`declared`: by name whether a type has fields or variants, how many types it takes, and the lists of its fields' types."""

    def __init__(self, declared, sources, taken=()):
        self.declared, self.sources, self.taken = declared, sources, set(taken)
        self.structures, self.used, self.names, self.numbers = {}, [], {}, {}

    # What the MIR says

    def lists(self, kind, shape):
        """The lists of a declared type's fields where it has that shape, or None."""
        if kind[0] != 'named' or kind[1] not in self.declared or self.declared[kind[1]][0] != shape:
            return None
        _, takes, lists = self.declared[kind[1]]
        given = kind[2] if len(kind) > 2 else ()
        if len(given) != takes:
            raise Unknown("the MIR gives '%s' another number of types than it takes." % kind[1])
        return [[put(field, given) for field in fields] for fields in lists]

    def fields(self, kind):
        found = self.lists(kind, 'fields')
        return None if found is None else found[0]

    def variants(self, kind):
        return self.lists(kind, 'variants')

    def nothing(self, kind):
        """Whether a type has one value alone, of which C has none."""
        if kind[0] == 'named':
            fields = self.fields(kind)
            return fields is not None and all(map(self.nothing, fields))
        return kind[0] == 'unit' or kind[0] == 'ref' and self.nothing(kind[2])

    def laid(self, kind):
        """How many bytes a value takes in the MIR's memory, and what divides its place: as in C, an enum's tag one byte before its fields."""
        if kind[0] == 'int':
            return kind[1] // 8, kind[1] // 8
        if kind[0] in ('bool', 'unit', 'ptr', 'ref', 'slice'):
            return {'bool': (1, 1), 'unit': (0, 1), 'slice': (16, 8)}.get(kind[0], (8, 8))
        if kind[0] == 'array':
            size, place = self.laid(kind[1])
            return size * kind[2], place
        lists = [self.fields(kind)] if self.fields(kind) is not None else self.variants(kind)
        if lists is None:
            raise Unknown("the MIR goes by elements of the type '%s'." % kind[0])
        end, places = 1 if self.variants(kind) is not None else 0, 1
        for fields in lists:
            at = 1 if self.variants(kind) is not None else 0
            for size, place in map(self.laid, fields):
                at, places = at + -at % place + size, max(places, place)
            end = max(end, at)
        return end + -end % places, places

    # What C calls it

    def called(self, kind):
        """A type's part of the name of a structure that is made of it."""
        if kind is None:
            raise Unknown('the MIR gives a function a type that C has no value of.')
        if kind[0] in ('int', 'number'):
            return HINTS[kind[1]] if kind[0] == 'int' else str(kind[1])
        if kind[0] == 'named':
            return self.own_name(kind) if len(kind) > 2 else snake(kind[1].split('::')[-1])
        if kind[0] in ('ref', 'slice'):
            return ('' if kind[1] else 'const_') + self.called(kind[2]) + ('s' if kind[0] == 'slice' else '_at')
        if kind[0] in ('bool', 'unit'):
            return {'bool': 'flag', 'unit': 'nothing'}[kind[0]]
        raise Unknown("the MIR gives a declared type the type '%s'." % kind[0])

    def own_name(self, kind):
        """The name in C of a structure; one that a header has already means what it means there."""
        if kind not in self.names:
            name = c_name(kind[1])
            if len(kind) > 2:
                given = ('_and_' if kind[1] == '(,)' else '_or_').join(map(self.called, kind[2]))
                name = given if kind[1] == '(,)' else '%s_of_%s' % (name, given)
            name = name + '_within' if name in self.taken else name
            if name in self.names.values():
                raise Unknown("two types of the MIR are '%s' in C." % name)
            self.names[kind] = name
        return self.names[kind]

    def structure(self, kind):
        if kind[1] in self.structures:
            return self.structures[kind[1]][0]
        if kind not in self.used:
            if kind[1] not in self.declared:
                raise Unknown("the MIR uses a structure '%s' that it doesn't describe." % kind[1])
            for _, of in self.members(kind):
                self.rows('', of)
            self.used.append(kind)
        return self.own_name(kind)

    def field(self, kind, i):
        """The text of a structure's field, and its type."""
        of = self.fields(kind)
        if of is None or i >= len(of):
            raise Unknown("the MIR takes a field of '%s' that it doesn't have." % kind[1])
        if kind[1] in self.structures:
            return self.structures[kind[1]][1][i], of[i]
        told = self.sources.structures.get(kind[1])
        name = PLACES[i] if kind[1] == '(,)' and i < len(PLACES) else told[1][i] if told and i < len(told[1]) else 'field%d' % i
        return name, of[i]

    def told(self, name):
        """The variants of an enum by their names, each with its fields'; a number where a field has no name."""
        return LIBRARY.get(name) or self.sources.enums.get(name, ('', []))[1]

    def variant(self, kind, k):
        """A variant's name, and its fields' names and types."""
        of, told = self.variants(kind), self.told(kind[1])
        if of is None or k >= len(of):
            raise Unknown("the MIR takes a variant of '%s' that it doesn't have." % kind[1])
        name = told[k][0] if self.names_all(told, of) else 'Variant%d' % k
        names = ['_or_'.join(self.own_fields(told, of, i)[j] for i in self.sharing(of, k, j)) for j in range(len(of[k]))]
        return name, list(zip((n + '_value' if n == 'tag' or n in KEYWORDS else n for n in names), of[k]))

    @staticmethod
    def names_all(told, of):
        return [len(fields) for _, fields in told] == list(map(len, of))

    def own_fields(self, told, of, k):
        """What the fields of a variant are called for themselves."""
        name, fields = told[k] if self.names_all(told, of) else ('Variant%d' % k, list(map(str, range(len(of[k])))))
        return [snake(name) if fields == ['0'] else '%s_%s' % (snake(name), field) for field in fields]

    @staticmethod
    def sharing(of, k, j):
        """The variants that have one member for their field j: only one of them is there at a time, and a smaller structure is handed over sooner."""
        same = [i for i, fields in enumerate(of) if len(fields) > j]
        return same if len({of[i][j] for i in same}) == 1 else [k]

    def variant_field(self, kind, k, j):
        """The text and the type of what stands at a variant's place: the tag, and behind it the variant's fields."""
        _, fields = self.variant(kind, k)
        if j > len(fields):
            raise Unknown("the MIR takes a field of '%s' that it doesn't have." % kind[1])
        return ('tag', ('int', 8)) if j == 0 else fields[j - 1]

    def tag(self, kind, k):
        """The name in C of a variant's number."""
        of = kind[1].split('::')[-1] if kind[1] in LIBRARY else kind[1]
        return '%s_%s' % (c_name(of).upper(), snake(self.variant(kind, k)[0]).upper())

    def members(self, kind):
        """What the structure has in C: the name and the type of each member that has values."""
        of = self.variants(kind)
        if of is None:
            found = [self.field(kind, i) for i in range(len(self.fields(kind)))]
        else:
            found = [('tag', ('int', 8))] + [self.variant_field(kind, k, j) for k, fields in enumerate(of) for j in range(1, len(fields) + 1)]
        found = list(dict.fromkeys((name, of) for name, of in found if not self.nothing(of)))
        if len({name for name, _ in found}) != len(found):
            raise Unknown("two fields of '%s' have one name in C." % kind[1])
        return found

    def structures_used(self):
        """The text of each structure that was used and is no header's, behind those that it has as fields."""
        numbered = set()
        for kind in self.used:
            told = self.sources.structures.get(kind[1]) or self.sources.enums.get(kind[1])
            comment = commented('%s: %s' % (spelled(kind), told[0]) if told and told[0] else spelled(kind))
            if self.variants(kind) is not None and kind[1] not in numbered:
                numbered.add(kind[1])
                tags = [self.tag(kind, k) for k in range(len(self.variants(kind)))]
                line = 'enum { %s };' % ', '.join(tags)
                yield line if len(line) <= WIDTH else '\n    '.join(['enum {'] + [tag + ',' for tag in tags]) + '\n};'
            rows = ['    ' + row for name, of in self.members(kind) for row in self.rows(name, of)]
            yield '\n'.join([comment] + ['struct %s {' % self.own_name(kind)] + rows + ['};'])
