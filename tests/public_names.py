"""Whether one public name has one meaning, for tests/run-style: a name that two crates declare stands in tests/names.txt, with the reason.

Public are the names declared 'pub' at the top of a file of specs, and the types, records and abbreviations declared so in proofs. A row of the
list is 'name crate crate..: why'. A name that is declared in one crate only, or in others than its row says, has to leave the list or be mended;
and no file may use such a name of two crates, but under another name ('as').
"""
import collections
import glob
import re

LIST = "tests/names.txt"
DECLARED = re.compile(r"^(abbrev |unfoldable )?pub (record |data |ruleset |mod |use )?([^\s:(){}]+)", re.M)
USED = re.compile(r"use Rattle\.([a-z_]+)\.(?:specs|proofs)[\w.+'-]*\.\{([^}]*)\}")
TYPES = ("abbrev", "record", "data")
OF_A_LOOP = re.compile(r"(invariant|decreases)-")  # what the kit calls a loop's invariant and its measure: nobody uses them by that name


def declared():
    """The crates that declare each public name."""
    found = collections.defaultdict(set)
    for path in glob.glob("crates/*/specs/**/*.antt", recursive=True) + glob.glob("crates/*/proofs/**/*.antt", recursive=True):
        _, crate, part = path.split("/")[:3]
        with open(path, encoding="utf-8") as file:
            for before, kind, name in DECLARED.findall(file.read()):
                if kind not in ("mod ", "use ") and not OF_A_LOOP.match(name) and (part == "specs" or (before or kind).strip() in TYPES):
                    found[name].add(crate)
    return found


def mixed(found):
    """A sentence for each file that uses a name of two crates."""
    files = [path for part in ("specs/**/*.antt", "proofs/**/*.antt", "src/**/*.rt") for path in glob.glob(f"crates/*/{part}", recursive=True)]
    for path in files:
        used = collections.defaultdict(set)
        with open(path, encoding="utf-8") as file:
            for crate, names in USED.findall(file.read()):
                for name in names.split(", "):
                    used[name].add(crate)
        yield from (f"{path} uses {name} of {' and '.join(sorted(used[name]))}." for name in sorted(used) if len(used[name] & found.get(name, set())) > 1)


def rows():
    """The list: of each name the crates and the reason."""
    with open(LIST, encoding="utf-8") as file:
        for line in file:
            if not line.startswith("#"):
                place, _, why = line.rstrip("\n").partition(": ")
                name, *crates = place.split()
                yield name, set(crates), why


def faults():
    """A sentence for each name that isn't as the list says."""
    found, listed = {name: crates for name, crates in declared().items() if len(crates) > 1}, {}
    for name, crates, why in rows():
        listed[name] = crates
        if not why:
            yield f"{LIST}: {name} has no reason."
    for name in sorted(found):
        if name not in listed:
            yield f"{name} is declared by {' and '.join(sorted(found[name]))}: find another name, or put it into {LIST} with the reason."
        elif found[name] != listed[name]:
            yield f"{LIST}: {name} is declared by {' '.join(sorted(found[name]))} now."
    yield from (f"{LIST}: {name} is no longer declared twice; its row goes." for name in sorted(set(listed) - set(found)))
    yield from mixed(found)
