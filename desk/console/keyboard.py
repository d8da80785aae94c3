"""A person at the keyboard: a prompt that says who runs, history and completion where the terminal has them."""

from desk.console.console import Quit
from desk.console.forms import FORMS, first_words
from desk.console.mistakes import Mistake, pointed
from desk.console.reading import read_line
from desk.console.tokens import decoded, encoded
from desk.log import standard
from desk.log.words import HEADING, row

GREETING = "A station in words: 'help' names all words, 'quit' ends.\nBegin with: process READ priority 5 buffers 2"
WORD_ENDS = " \t\n\":#"


def choices(before, session):
    """The words that may follow what stands before them in a line."""
    said = before.split()
    if said and said[0].endswith(":") or len(said) > 1 and said[1] == ":":
        said = before.split(":", 1)[1].split()
    found = []
    for form in FORMS.values():
        if len(said) < len(form.parts) and all(part.isupper() or part == word.casefold() for part, word in zip(form.parts, said)):
            part = form.parts[len(said)]
            found += [part] if part.islower() else names_of(session) if part == "PROCESS" else first_words() if part == "WORD" else []
    return list(dict.fromkeys(found))


def names_of(session):
    """The names of the processes so far."""
    return [decoded(name) for name in session.names.so_far()]


def completions(before, begun, session):
    """Those words that complete what is begun, in any case."""
    return [f"{choice} " for choice in choices(before, session) if choice.casefold().startswith(begun.casefold())]


def complete_by(readline, session):
    """Has the terminal complete words."""
    def complete(begun, number):
        before = readline.get_line_buffer()[:readline.get_begidx()]
        found = completions(before, begun, session)
        return found[number] if number < len(found) else None
    readline.set_completer(complete)
    readline.set_completer_delims(WORD_ENDS)
    readline.parse_and_bind("tab: complete")


def prompt(session):
    """Who runs, as it could stand before a call; before the first call that the layout goes on."""
    if not session.names.laid:
        return "layout: "
    return f"{session.station().running()}: " if not session.over else "refused: "


def typed(session):
    """The next line that was typed, or None at the end; Control-C drops the line."""
    while True:
        try:
            standard.say_all()
            return encoded(input(prompt(session)))
        except EOFError:
            standard.say("")
            return None
        except KeyboardInterrupt:
            standard.say("")
        except UnicodeDecodeError:
            standard.say("What was typed is no text of this terminal's; it is dropped.")


def said(words):
    """Some lines on standard output."""
    if words:
        standard.say("\n".join(words))


def talk(console):
    """Does what is typed until the end; gives the exit code."""
    session = console.session
    try:
        import readline  # where Python has it
        complete_by(readline, session)
    except ImportError:
        pass
    said([GREETING, row(*HEADING, session.width)])
    while (raw := typed(session)) is not None:
        line = decoded(raw)
        try:
            statement = read_line(line)
            if statement:
                said(console.do(statement))
        except Mistake as mistake:
            said([pointed(line, mistake.column), f"{mistake.told()[0].upper()}{mistake.told()[1:]}"])
        except Quit:
            break
    return 0
