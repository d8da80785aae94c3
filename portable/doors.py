"""The functions of a program that are C by hand, since their code is the kit's own or leads to it: how it reads and writes.

What the C of each does is what the function's contract says of standard input and output; that it does is left to reading, as it is of
the C library's read and write. A program's own `main`, which gets the two streams from the kit, isn't translated: `run` is called.
"""


class Door:
    """A function by hand: its head, its lines, and which of the texts of its arguments it uses."""

    forward = False

    def __init__(self, name, comment, result, parameters, uses, lines):
        self.name, self.comment, self.result, self.parameters, self.uses, self.lines = name, comment, result, parameters, uses, lines

    @property
    def signature(self):
        return self

    def head(self):
        return 'static %s %s(%s)' % (self.result, self.name, self.parameters)

    def wanted(self, texts):
        return [texts[i] for i in self.uses]


READ = Door('replay_streams_read', 'replay::streams::Streams::read: one read of standard input; -1 where it fails.', 'uint64_t',
            'uint8_t *block, uint64_t block_count', (1, 2), ['    return (uint64_t)read(0, block, (size_t)block_count);'])
WRITE = Door('replay_streams_write', 'replay::streams::Streams::write: all of the bytes to standard output, unless a write fails.', 'void',
             'const uint8_t *bytes, uint64_t bytes_count', (1, 2), [
                 '    uint64_t done = 0;',
                 '    while (done < bytes_count) {',
                 '        uint64_t more = (uint64_t)write(1, bytes + done, (size_t)(bytes_count - done));',
                 '        if (!signed_less_64(0, more)) {',
                 '            return;',
                 '        }',
                 '        done = done + more;',
                 '    }'])
COUNT = Door('io_count', 'io::count: how many bytes a read gave: 0 where it failed, and never more than were asked for.', 'uint64_t',
             'uint64_t got, uint64_t most', (0, 2), [
                 '    if (!signed_less_64(0, got)) {',
                 '        return 0;',
                 '    }',
                 '    return got < most ? got : most;'])
LARGE_BUFFER = Door('io_large_buffer', 'io::large_buffer: so many zeros.', 'void', 'uint8_t *result', (), [
    '    for (uint64_t at = 0; at < 65536u; at++) {',
    '        result[at] = 0;',
    '    }'])

# By the symbol of the function; of a function of the kit's libraries, which prints none of theirs, by the module of its symbol.
DOORS = {'replay::streams::Streams::read': READ, 'replay::streams::Streams::write': WRITE,
         'Rattle.io.proofs.count.Symbol': COUNT, 'Rattle.io.proofs.large_buffer.Symbol': LARGE_BUFFER}
