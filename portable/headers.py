"""The headers in include/elvomike/: the prototypes that a library's entries must have, and the structures that they lend."""
import re

from .term import Unknown

FIELD = re.compile(r'^(\w+) (.*)$')
PROTOTYPE = re.compile(r'^((?:struct )?\w+) (\w+)\(([^)]*)\);', re.M)


class Prototype:
    """An entry as its header declares it: the type it gives, and its parameters with their types."""

    def __init__(self, header, result, parameters):
        self.header, self.result, self.parameters = header, result, parameters


def fields_of(body):
    """A structure's fields, each element of an array for itself: (type, text)."""
    found = []
    for row in filter(None, (part.strip() for part in body.split(';'))):
        kind, names = FIELD.match(row).groups()
        for name in names.split(','):
            array = re.fullmatch(r'\s*(\w+)\[(\d+)\]', name)
            found += [(kind, '%s[%d]' % (array[1], i)) for i in range(int(array[2]))] if array else [(kind, name.strip())]
    return found


class Headers:
    def __init__(self, places):
        self.prototypes, self.structures = {}, {}
        for place in places:
            text = re.sub(r'/\*.*?\*/', '', place.read_text(encoding='utf-8'), flags=re.S)
            for name, body in re.findall(r'struct (\w+) \{(.*?)\};', text, re.S):
                self.structures[name] = fields_of(body)
            for result, name, parameters in PROTOTYPE.findall(text):
                pairs = [re.fullmatch(r'(.*?)(\w+)', ' '.join(part.split())).groups() for part in parameters.split(',')]
                self.prototypes[name] = Prototype(place.name, result, [(kind.strip(), name) for kind, name in pairs])

    def prototype(self, name):
        if name not in self.prototypes:
            raise Unknown("no header declares the entry '%s'." % name)
        return self.prototypes[name]
