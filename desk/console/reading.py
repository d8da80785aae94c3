"""Lines of words read: each becomes a statement, or a mistake with its column."""

from collections import namedtuple

from desk.console.forms import BY_CALLER, FORMS, beginning_with, first_words
from desk.console.mistakes import Mistake, expected, listed
from desk.console.operands import EXPECTED, READERS, reference, said
from desk.console.tokens import COLON, WORD, cut
from desk.log.lines import MARK

ANSWERED = "answered"  # the name of a statement that is a station's answer, a line marked with '> '
MARKED = MARK.decode()

# What a line says: its form's name, who is said to call, if anyone, and a value for each operand, None where it was left out.
# The place is the line's, where lines are counted.
Statement = namedtuple("Statement", "name caller values place", defaults=(None,))


def read_line(line):
    """The statement of a line; None where there is nothing in it but a remark. Raises a Mistake."""
    line = line.rstrip("\r\n")
    if line.startswith(MARKED):
        return Statement(ANSWERED, None, (line[len(MARKED):].encode("utf-8", "surrogateescape"),))
    tokens = cut(line)
    if not tokens:
        return None
    caller, begin = None, 0
    if len(tokens) > 1 and tokens[1].kind == COLON:
        caller, begin = reference(tokens[0]), 2
    end = tokens[-1].end
    form, taken = form_from(tokens[begin:], end, caller)
    return Statement(form.name, caller, values_from(form, tokens[begin + taken:], taken, end))


def form_from(tokens, end, caller):
    """The form that some pieces begin, and how many pieces tell it."""
    words = [name for name in first_words() if not caller or name in {FORMS[one].parts[0] for one in BY_CALLER}]
    wanted = "a call of who runs" if caller else "the first word of a form ('help' names them all)"
    if not tokens:
        raise expected("", end, wanted)
    first, *rest = tokens
    forms = beginning_with(first.said) if first.kind == WORD else []
    if not forms:
        raise expected(said(first), first.column, wanted, words)
    if caller and forms[0].name not in BY_CALLER:
        raise Mistake(first.column, f"'{first.said}' comes from outside, so no process calls it; leave the name and the colon out.")
    if len(forms) == 1:
        return forms[0], 1
    choices = [form.parts[1] for form in forms]
    found = rest[0] if rest else None
    if found is None or found.kind != WORD or found.said.casefold() not in choices:
        raise expected(said(found) if found else "", found.column if found else end, listed(choices), choices)
    return forms[choices.index(found.said.casefold())], 2


def values_from(form, tokens, place, end):
    """The operands of a form, from the pieces behind those that tell it; the place is that of the next part."""
    values = []
    while place < len(form.parts):
        part = form.parts[place]
        is_operand = part.isupper()
        if not tokens and place in form.ends:
            break
        wanted = EXPECTED[part] if is_operand else f"'{part}'"
        if not tokens:
            raise expected("", end, wanted)
        if is_operand:
            value, count = READERS[part](tokens, part)
            values.append(value)
        elif tokens[0].kind == WORD and tokens[0].said.casefold() == part:
            count = 1
        else:
            raise expected(said(tokens[0]), tokens[0].column, wanted, [part])
        tokens, place = tokens[count:], place + 1
    if tokens:
        raise expected(said(tokens[0]), tokens[0].column, "the end of the line")
    operands = sum(part.isupper() for part in form.parts)
    return (*values, *[None] * (operands - len(values)))


def read_script(text):
    """The statements of a whole text, each with its place, and the mistakes, likewise."""
    statements, mistakes = [], []
    for place, line in enumerate(text.removeprefix("\ufeff").split("\n"), 1):
        try:
            statement = read_line(line)
        except Mistake as mistake:
            mistake.place = place
            mistakes.append(mistake)
        else:
            if statement:
                statements.append(statement._replace(place=place))
    return statements, mistakes
