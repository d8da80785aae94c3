"""Holds values to a JSON schema, as far as docs/explain.schema.json uses its words; another word is an error, and none is passed over."""

import json

TYPES = {"object": dict, "array": list, "string": str, "integer": int, "null": type(None)}
SAID = ("$schema", "title", "$defs")  # words that ask nothing


class Unfit(Exception):
    """What is wrong with a value, and where."""


class Schema:
    """A schema that is read from a file."""

    def __init__(self, path):
        with open(path, encoding="utf-8") as file:
            self.whole = json.load(file)

    def hold(self, value, schema=None, at="$"):
        """Raises where a value isn't as the schema says."""
        schema = self.whole if schema is None else schema
        for word, wanted in schema.items():
            if word not in SAID:
                getattr(self, "hold_" + word.lstrip("$"))(value, wanted, schema, at)

    def hold_ref(self, value, wanted, _, at):
        self.hold(value, self.whole["$defs"][wanted.removeprefix("#/$defs/")], at)

    def hold_type(self, value, wanted, _, at):
        kinds = [wanted] if isinstance(wanted, str) else wanted
        if isinstance(value, bool) or not isinstance(value, tuple(TYPES[kind] for kind in kinds)):
            raise Unfit(f"{at} is {value!r} and no {' or '.join(kinds)}")

    def hold_const(self, value, wanted, _, at):
        if value != wanted:
            raise Unfit(f"{at} is {value!r} and not {wanted!r}")

    def hold_oneOf(self, value, wanted, _, at):
        faults = []
        for one in wanted:
            try:
                self.hold(value, one, at)
            except Unfit as fault:
                faults.append(str(fault))
        if len(wanted) - len(faults) != 1:
            raise Unfit(f"{at} fits {len(wanted) - len(faults)} of {len(wanted)}: {'; '.join(faults)}")

    def hold_required(self, value, wanted, _, at):
        for name in wanted:
            if name not in value:
                raise Unfit(f"{at} has no {name}")

    def hold_properties(self, value, wanted, _, at):
        for name in set(value) & set(wanted):
            self.hold(value[name], wanted[name], f"{at}.{name}")

    def hold_additionalProperties(self, value, wanted, schema, at):
        if wanted is not False or set(value) - set(schema["properties"]):
            raise Unfit(f"{at} has {sorted(set(value) - set(schema['properties']))} too")

    def hold_items(self, value, wanted, _, at):
        for place, item in enumerate(value):
            self.hold(item, wanted, f"{at}[{place}]")

    def hold_minItems(self, value, wanted, _, at):
        self.hold_minimum(len(value), wanted, _, at)

    def hold_maxItems(self, value, wanted, _, at):
        self.hold_maximum(len(value), wanted, _, at)

    def hold_minLength(self, value, wanted, _, at):
        self.hold_minimum(len(value), wanted, _, at)

    def hold_minimum(self, value, wanted, _, at):
        if value is not None and value < wanted:
            raise Unfit(f"{at} is {value}, under {wanted}")

    def hold_maximum(self, value, wanted, _, at):
        if value is not None and value > wanted:
            raise Unfit(f"{at} is {value}, over {wanted}")
