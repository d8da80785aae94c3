"""The files in source/: each library's crates, whose entries it has, its header, and the type of its 64-bit numbers."""


class Library:
    """`index`: monitor_index where 32 bits may be asked for; else the numbers keep the 64 bits of the MIR, as they do in the functions
    that are `wide`: there a sum goes beyond 32 bits. The functions that stand `apart` are made a part of no other one."""

    def __init__(self, name, crates, header, about, index='monitor_index', program=False, wide=(), apart=()):
        self.name, self.crates, self.header, self.about = name, crates, header, about
        self.index, self.program, self.wide, self.apart = index, program, wide, apart


MARK = ('sound::names::spread',)  # the mark of a name, from the sum of three products
# Each call's own function: only one of them is gone through, and their frames, taken together, went beyond the offsets that an AVR reaches at once.
CALLS = ('messages::send', 'messages::send_answer', 'processes::waits::wait_answer', 'processes::waits::wait_event', 'processes::waits::wait_interrupt',
         'processes::waits::interrupt', 'processes::start', 'processes::stop', 'processes::semaphores::lower', 'processes::semaphores::raise',
         'clean::clean', 'clock::tick', 'listing::list')

LIBRARIES = [
    Library('monitor', ['trap', 'walks', 'quick'], 'quick.h', 'the calls, the layout, who is stuck behind whom, how far wakes walk, '
            'and the call without the check', wide=MARK, apart=CALLS),
    Library('why', ['why'], 'why.h', "why a table isn't sound", apart=('why::clauses::look', 'why::clauses::fixed_words')),
    Library('screen', ['screen'], 'screen.h', "the operator's screen", wide=MARK),
    Library('compare', ['compare'], 'compare.h', 'two logs compared line by line', index='uint64_t'),
    Library('tape', ['tape'], 'tape.h', "the paper tape reader's input operation", index='uint64_t'),
    Library('delays', ['delays'], 'delays.h', 'a second clock, the delays in a list by time left'),
    Library('replay', ['replay'], None, 'the program that answers a log of calls', index='uint64_t', program=True),
]
