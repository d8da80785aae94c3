"""The wrong programs of crates/*/must-fail, what each file of them says of its refusals, and what the prover said.

An edit file makes one wrong program, named as the file; or it is a sheet of several, each behind a line 'wrong: NAME', each in a
function of its own. A proof knows other functions by their contracts alone, so that a wrong program is refused in its own function's
proof, whatever else is on its sheet; a proof that only leans on a refused one has no error but that this was not admitted.

A line 'refused: FILE: NAME: FACT', or 'refused: FUNCTION itself: FACT' of a function that has no proof file, says where a wrong program
is refused first, and the fact that fails there: a value, or a statement about values, and no mere place in a proof. 'The result' is
what is given back, or left in the words. The kit passes such lines over.
"""

import re
from collections import namedtuple
from pathlib import Path

Program = namedtuple("Program", "crate name edit place fact")  # edit: the name of its file, by which the prover's words are kept
Place = namedtuple("Place", "file name")  # of a refusal: a file and what fails in it; or no file and a function that has no proof of its own
Said = namedtuple("Said", "errors alone")  # errors: the first own one of each file, in order; alone: functions without a file, refused

WRONG = re.compile(r"^wrong: (\w+)$", re.M)
REFUSED = re.compile(r"^refused: (?:(?P<file>\S+): (?P<name>\S+)|(?P<function>\S+) itself): (?P<fact>.+)$", re.M)
ERROR = re.compile(r"(?P<path>\S+\.antt):\d+:\d+: error: `(?P<name>[^`]+)`(?P<rest>.*)")
FUNCTION = re.compile(r"fn (?P<name>\S+): (?:no proof: (?!it calls )|not proved)(?!.*; it calls )")
CYCLE = re.compile(r"expected answers in \S*?(?P<folder>proofs/\S*\+\w+)/")
LEANS = "was not admitted"


def refusal_of(text):
    """The place that a wrong program's text says it is refused at, and the fact that fails there; None twice where it doesn't say."""
    said = REFUSED.search(text)
    if said is None:
        return None, None
    return Place(said["file"], said["name"] or said["function"]), said["fact"]


def programs_in(crate, edit, text):
    """The wrong programs of one edit file."""
    first, *rest = WRONG.split(text)
    parts = zip(rest[::2], rest[1::2]) if rest else [(edit, first)]
    return [Program(crate, name, edit, *refusal_of(part)) for name, part in parts]


def programs_of(root):
    """The wrong programs, in the order of their crates and names."""
    paths = Path(root, "crates").glob("*/must-fail/*.edit")
    return sorted(program for path in paths for program in programs_in(path.parent.parent.name, path.stem, path.read_text(encoding="utf-8")))


def said_of(log):
    """What the prover said of an edited crate. A function whose own files have an error isn't refused for what it lacks a file of; those of
    one cycle have one proof, and count as the first of them."""
    errors, alone, cycles = {}, [], set()
    for line in log.split("\n"):
        error, function = ERROR.match(line), FUNCTION.match(line)
        if error and LEANS not in error["rest"]:
            file = re.search(r"(?:^|/)((?:specs|proofs)/\S+)$", error["path"])
            errors.setdefault(file[1] if file else error["path"], error["name"])
        elif function:
            cycle = CYCLE.search(line)
            if cycle is None or cycle["folder"] not in cycles:
                alone.append(function["name"])
            if cycle:
                cycles.add(cycle["folder"])
    return Said([Place(*error) for error in errors.items()], [name for name in alone if not has_error(errors, name)])


def has_error(errors, function):
    """Whether an error is in a function's own files: those of table::links::join are in proofs/links/join, or, of functions that call one
    another, in proofs/links/+CYCLE, where the cycle's name has theirs in it."""
    _, *parts, name = function.split("::")
    folder = "/".join(["proofs", *parts, ""])
    own = re.compile(re.escape(folder) + rf"(?:{name}|\+(?:\w+_)?{name}(?:_\w+)?)/")
    return any(own.match(file) for file in errors)


def faults_of(edit, places, said):
    """What is wrong with a tried edit file, a sentence each, where its programs should be refused at these places."""
    alone = len(places) == 1
    errors = said.errors[:1] if alone else said.errors
    for name, place in places.items():
        if place.file is None:
            if place.name not in said.alone:
                yield f"{name}: the function {place.name} isn't refused by itself."
        elif place not in errors:
            others = [error for error in errors if alone or error.file == place.file]
            yield f"{name}: it isn't refused in {place.file} at {place.name}" + "".join(f", but in {e.file} at {e.name}" for e in others) + "."
    if alone:
        return
    where = [place.file or place.name for place in places.values()]
    if len(set(where)) < len(where):
        yield f"{edit}: two of its wrong programs are in one function."
    for other in [f"{error.file} at {error.name}" for error in errors if error.file not in where] + [f for f in said.alone if f not in where]:
        yield f"{edit}: {other} is refused too, and no wrong program is said to be there."
