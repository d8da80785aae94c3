"""Holds each wrong program to be refused by itself, for what its file says; or lists them. tests/run-refused is its starter."""

import sys

from .programs import faults_of, programs_of, said_of
from .trying import kept, try_all


def told_faults(programs):
    """Of which wrong programs no file says where they are refused, a sentence each."""
    for program in programs:
        if program.place is None:
            yield f"{program.crate}: {program.name}: no line 'refused:' in {program.edit}.edit says where it is refused, and for which fact."


def tried_faults(root, programs):
    """What is wrong with how these wrong programs were refused, a sentence each. Those that weren't tried yet are tried."""
    edits = sorted({(program.crate, program.edit) for program in programs})
    yield from try_all(root, edits)
    for crate, edit in edits:
        said = kept(root, crate, edit)
        if said is None:  # told above
            continue
        places = {program.name: program.place for program in programs if (program.crate, program.edit) == (crate, edit) and program.place}
        for fault in faults_of(edit, places, said_of(said)):
            yield f"{crate}: {fault}"


def listed(programs):
    """The wrong programs by crate, each with where it is refused and the fact that fails there, a line each."""
    for crate in sorted({program.crate for program in programs}):
        yield crate
        own = [program for program in programs if program.crate == crate]
        width = max(len(program.name) for program in own)
        for _, name, _, place, fact in own:
            where = "not told where" if place is None else f"{place.file}: {place.name}: {fact}" if place.file else f"{place.name} itself: {fact}"
            yield f"  {name.replace('_', ' '):{width}}  {where}"
        yield ""
    yield f"{len(programs)} wrong programs"


def main(words):
    crates = [word for word in words if word != "--list"]
    programs = [program for program in programs_of(".") if not crates or program.crate in crates]
    if "--list" in words:
        print("\n".join(listed(programs)))
        return 0
    found = [*told_faults(programs), *tried_faults(".", programs)]
    print("\n".join([*found, f"{len(programs)} wrong programs, {len(found)} faults"]))
    return 1 if found else 0


if __name__ == "__main__":
    sys.exit(main(sys.argv[1:]))
