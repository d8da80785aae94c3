"""A plain sequential proofreader: what the station prints, page after page, without processes, messages or a monitor."""

import re

PAGE_LINES, LINE_BYTES, LINE_WORDS = 60, 96, 32
WORD = re.compile(rb"[A-Za-z\x80-\xff]+(?:'[A-Za-z\x80-\xff]+)*")
BLANKS = b" \t\r"


def built_in_words(path="examples/proofreader/words.c"):
    """The words that the station has built in."""
    with open(path, encoding="ascii") as file:
        return {word.encode() for word in re.findall(r'"([a-z\']+)"[,\n]', file.read())}


def broken(raw):
    """A line of the text as lines that aren't too long."""
    while True:
        starts = [match.start() for match in WORD.finditer(raw)]
        beyond = min([LINE_BYTES] * (len(raw) > LINE_BYTES) + starts[LINE_WORDS:LINE_WORDS + 1], default=None)
        if beyond is None:
            yield raw.rstrip(BLANKS)
            return
        cut = max(raw.rfind(bytes([blank]), 1, beyond + 1) for blank in BLANKS)
        if cut < 1:
            cut = beyond
            while cut > 1 and 0x80 <= raw[cut] < 0xC0:
                cut -= 1
        yield raw[:cut].rstrip(BLANKS)
        raw = raw[cut + 1:] if raw[cut:cut + 1] in (b" ", b"\t", b"\r") else raw[cut:]


def pages_of(text):
    """The text as pages, each a list of lines."""
    for number, block in enumerate(text.split(b"\f")):
        block = block[1:] if number > 0 and block.startswith(b"\n") else block
        raws = block.split(b"\n")
        lines = [line for raw in (raws[:-1] if raws[-1] == b"" else raws) for line in broken(raw)]
        for first in range(0, len(lines), PAGE_LINES):
            yield lines[first:first + PAGE_LINES]


def marks_of(line, words):
    """The places of the words that aren't in the list."""
    return [match.span() for match in WORD.finditer(line) if match.group().lower() not in words]


def marked(line, places):
    """The marks under a line, a column for each character."""
    under = bytearray()
    for at in range(places[-1][1]):
        if not 0x80 <= line[at] < 0xC0:
            inside = any(begin <= at < end for begin, end in places)
            under += b"^" if inside else b"\t" if line[at:at + 1] == b"\t" else b" "
    return bytes(under)


def drawn_text(seed, pages, words):
    """A text of short pages of drawn words, one in six of them misspelt; the same for the same seed (Marsaglia's xorshift)."""
    words = sorted(words)

    def drawn(below):
        nonlocal seed
        seed ^= seed << 13 & 0xFFFFFFFF
        seed ^= seed >> 17
        seed ^= seed << 5 & 0xFFFFFFFF
        return seed % below

    def line():
        return b" ".join(words[drawn(len(words))] + (b"zz" if drawn(6) == 0 else b"") for _ in range(1 + drawn(9)))

    return b"\f".join(b"".join(line() + b"\n" for _ in range(1 + drawn(9))) for _ in range(pages))


def printed(text, words, count=None):
    """What the printer prints of so many pages; the text is gone round where it has fewer."""
    pages, out = list(pages_of(text)), []
    for number in range(count or len(pages)):
        page = pages[number % len(pages)]
        places = [marks_of(line, words) for line in page]
        mistakes = sum(map(len, places))
        out.append(b"PAGE %d, %d word%s to look at" % (number + 1, mistakes, b"" if mistakes == 1 else b"s"))
        for line, marks in zip(page, places):
            out.append(re.sub(rb"[\x00-\x08\x0b-\x1f]", b" ", line))
            out += [marked(line, marks)] if marks else []
        out.append(b"")
    return b"".join(line + b"\n" for line in out)
