"""python3 portable/vectors.py OUT DIGEST: writes OUT/vectors.h, the conformance run's vectors: outside ones of calls and layouts (those of
tests/vectors whose tables are small enough for an 8-bit board), as one run of words, and the digest that 2,000 rounds must come to."""
import sys
from pathlib import Path

HOME = Path(__file__).resolve().parent.parent
MOST_WORDS, MOST_TABLE = 16000, 320  # words of the whole: a board with 16-bit int has no larger array; words of one table
CALL, LAYOUT, END = 1, 2, 0

OPENING = """/*
 * vectors.h: what conformance.c runs through the monitor, and what must come back. Made by portable/make from outside test
 * vectors (%d calls and %d layouts); not to be edited. A zero stands before how many zeros there are. conformance.c says the rest.
 */
#define CONFORMANCE_DIGEST UINT32_C(0x%s)

static const uint16_t conformance_vectors[] CONFORMANCE_MEMORY = {
"""


def words(field):
    return [int(field[i:i + 4], 16) for i in range(0, len(field), 4)] if field != '-' else []


def run(field):
    return [len(words(field))] + words(field)


def after(field):
    """0 where nothing is changed, else 1 and the words."""
    return [0] if field == '=' else [1] + words(field)


def call(line):
    number, a, b, message, table, room, answer, table_after, room_after = line.split()[:9]
    given = [int(answer[:2], 16)] + words(answer[2:])
    return [CALL, int(number, 16), int(a, 16), int(b, 16)] + words(message) + run(table) + run(room) + given + after(table_after) + after(room_after)


def layout(line):
    entries, table, answer, table_after, edition, counters = line.split()[:6]
    return [LAYOUT] + run(entries) + run(table) + [int(edition, 16)] + run(counters) + [int(answer[:2], 16)] + after(table_after)


def packed(row):
    """The words, with each run of zeros as a zero and its length."""
    found, i = [], 0
    while i < len(row):
        zeros = i
        while zeros < len(row) and row[zeros] == 0:
            zeros += 1
        found += [0, zeros - i] if zeros > i else [row[i]]
        i = max(zeros, i + 1)
    return found


def chosen(name, read, place, room):
    """The vectors of a file whose tables are small, as many as there is room for."""
    found = []
    for line in (HOME / 'tests' / 'vectors' / name).read_text().splitlines():
        row = packed(read(line))
        if len(words(line.split()[place])) <= MOST_TABLE and sum(map(len, found)) + len(row) <= room:
            found.append(row)
    return found


def main(out, digest):
    calls, layouts = chosen('direct.txt', call, 4, MOST_WORDS * 3 // 4), chosen('layout.txt', layout, 1, MOST_WORDS // 4)
    stream = [word for row in calls + layouts for word in row] + [END, 1]
    rows = [', '.join(map(str, stream[i:i + 20])) for i in range(0, len(stream), 20)]
    Path(out, 'vectors.h').write_text(OPENING % (len(calls), len(layouts), digest) + ''.join('    %s,\n' % row for row in rows) + '};\n')


if __name__ == '__main__':
    main(*sys.argv[1:])
