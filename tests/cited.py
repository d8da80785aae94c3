"""Whether each name that docs/PROMISES.md cites is declared in the file that it names, for tests/run-style.

A bullet is 'sentence · names · files': files are named below crates/, or below the folder that the line over the bullets names ('File of
`crates/screen`'); a file without a folder stands in that of the file before it. A name in backquotes may have its crate in front.
"""
import glob
import re

PAGE = "docs/PROMISES.md"


def texts():
    """Every file of code, definitions and proofs: its place below crates/ without its ending, and its text."""
    found = {}
    for part in ("src", "specs", "proofs"):
        for path in glob.glob(f"crates/*/{part}/**/*", recursive=True):
            if path.endswith((".antt", ".rt")):
                with open(path, encoding="utf-8") as file:
                    found[re.sub(r"\.(antt|rt)$", "", path[len("crates/"):])] = file.read()
    return found


def bullets(page):
    """Each bullet under a line that ends in 'File' or 'File of ..', as one line, with the folder below which its files are named."""
    below = None
    for part in re.split(r"\n(?=- |\*|#)|\n\n", page):
        caption = re.match(r"\*[^*]*· File(?: of `crates/([^`]*)`)?\*", part)
        if caption:
            below = caption.group(1) + "/" if caption.group(1) else ""
        elif part.startswith(("#", "*")):
            below = None
        elif part.startswith("- ") and below is not None:
            yield below, " ".join(part.split())


def text_of(cited, below, known):
    """The text of the files that are cited together, and which of them aren't there."""
    found, strange, folder = [], [], below
    for name in cited.replace(".rt", "").split(", "):
        roots = ("", below, folder, below.split("/")[0] + "/")
        place = next((root + name for root in roots if any(k == root + name or k.startswith(root + name + "/") for k in known)), None)
        found += [known[k] for k in known if place and (k == place or k.startswith(place + "/"))]
        folder = place.rsplit("/", 1)[0] + "/" if place else folder
        strange += [] if place else [name]
    return "\n".join(found), strange


def missing():
    """A sentence for each file that isn't there and each name that isn't in its file."""
    known = texts()
    with open(PAGE, encoding="utf-8") as file:
        page = file.read()
    for below, bullet in bullets(page):
        for names, cited in re.findall(r" · ([^·]*`[^·]*) · ([\w/+]+(?:\.rt)?(?:, [\w/+]+(?:\.rt)?)*)(?=[;.]|$)", bullet):
            text, strange = text_of(cited, below, known)
            yield from (f"{PAGE}: there is no file {name} ({bullet[2:60]}..)." for name in strange)
            for name in re.findall(r"`([^`\s]+)`", re.sub(r" over .*", "", names)):
                if not re.search(rf"(?<![\w'-]){re.escape(name.rsplit('::', 1)[-1])}(?![\w'-])", text):
                    yield f"{PAGE}: {name} is not in {cited} ({bullet[2:60]}..)."
