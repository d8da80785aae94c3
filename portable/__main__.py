"""python3 portable [--checked] MIR OUT [NAME..]: writes the C of the libraries (or of those named) into the folder OUT, from the files
CRATE.mir in the folder MIR, one for each of their crates and of those below. `python3 portable --crates` names those crates;
`python3 portable --gather PRINTED CRATE` writes to standard output what CRATE.mir is, from the folder of `rt check --generated PRINTED`."""
import sys
from pathlib import Path

sys.path.insert(0, str(Path(__file__).resolve().parent.parent))

from portable.headers import Headers  # noqa: E402
from portable.libraries import LIBRARIES  # noqa: E402
from portable.library import File  # noqa: E402
from portable.printed import Modules, gathered  # noqa: E402
from portable.sources import Sources  # noqa: E402
from portable.term import Unknown, read_program  # noqa: E402
from portable.text import file_text  # noqa: E402

HOME = Path(__file__).resolve().parent.parent


def write(library, modules, out, sources, headers, checked):
    programs = [read_program(modules.functions(crate)) for crate in sources.below(library.crates)]
    text = file_text(File(library, programs, sources, headers, checked), checked)
    (out / (library.name + '.c')).write_text(text, encoding='utf-8')


def main(words):
    if words == ['--crates']:
        print('\n'.join(Sources(HOME).below(crate for library in LIBRARIES for crate in library.crates)))
        return 0
    if words[:1] == ['--gather']:
        sys.stdout.write(''.join(gathered(Path(words[1]), words[2])))
        return 0
    checked = '--checked' in words
    mir, out, *names = [Path(word) for word in words if word != '--checked']
    sources, headers = Sources(HOME), Headers(sorted(HOME.glob('include/elvomike/*.h')))
    modules = Modules(place.read_text(encoding='utf-8') for place in sorted(mir.glob('*.mir')))
    out.mkdir(parents=True, exist_ok=True)
    for library in LIBRARIES:
        if names and library.name not in map(str, names):
            continue
        try:
            write(library, modules, out, sources, headers, checked)
        except (Unknown, OSError) as error:
            print('portable: %s.c is not made: %s' % (library.name, error), file=sys.stderr)
            return 1
    return 0


if __name__ == '__main__':
    sys.exit(main(sys.argv[1:]))
