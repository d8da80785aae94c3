"""Help at the console: all forms by their groups, or one word with what it says."""

import textwrap

from desk.console.forms import GROUPS, beginning_with, first_words
from desk.console.mistakes import expected
from desk.console.operands import EXPECTED

PATTERNS_WIDE = 48


def all_told():
    """Every form, by groups."""
    told = []
    for group, forms in GROUPS.items():
        told += [f"{group[0].upper()}{group[1:]}:", *(f"  {pattern}" for pattern, _ in forms)]
    return [*told, "Who runs may be named before a call of its own: READ: send SPELL \"page 7\".",
            "Behind # a remark runs to the line's end. 'help WORD' says what a word does."]


def word_told(token, width):
    """What a word says, and what its operands are."""
    forms = beginning_with(token.said)
    if not forms:
        raise expected(token.said, token.column, "a word of this language", first_words())
    told = []
    for form in forms:
        told += [form.pattern, *textwrap.wrap(f"{form.says}.", width - 4, initial_indent="    ", subsequent_indent="    ")]
    operands = dict.fromkeys(part for form in forms for part in form.parts if part.isupper())
    for operand in operands:
        told += textwrap.wrap(f"{operand}: {EXPECTED[operand]}.", width - 4, initial_indent="    ", subsequent_indent="      ")
    return told


def help_told(token, width):
    """What help says: of a word, or of all."""
    return all_told() if token is None else word_told(token, width)
