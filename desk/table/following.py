"""The queues of a table followed from link to link, whatever the links are."""

from collections import namedtuple

from desk.log.station import ANSWERED, FOR_SEMAPHORE, QUEUED, RUNNING
from desk.table import words as at

# A queue: the sort of its records and how many there are, the place of its first, what it is called, and who belongs in it.
Queue = namedtuple("Queue", "sort count ends called members")


def running_queue(table):
    members = [p for p in range(1, table.processes + 1) if table.process(p, at.STATE) == RUNNING]
    return Queue(at.PROCESS_SORT, table.processes, at.RUNNING_FIRST, "the running queue", members)


def event_queue(table, p):
    members = [b for b in range(1, table.buffers + 1) if event_home(table, b) == p]
    return Queue(at.BUFFER_SORT, table.buffers, table.process_place(p, at.FIRST), f"process {p}'s event queue", members)


def semaphore_queue(table, s):
    members = [p for p in range(1, table.processes + 1) if table.process(p, at.STATE) == FOR_SEMAPHORE and table.process(p, at.SEMAPHORE) == s]
    return Queue(at.PROCESS_SORT, table.processes, table.semaphore_place(s, at.WAITING_FIRST), f"semaphore {s}'s queue", members)


def event_home(table, b):
    """The process in whose event queue a buffer belongs, 0 for none."""
    standing = table.buffer(b, at.STANDING)
    return table.buffer(b, at.RECEIVER) if standing == QUEUED else table.buffer(b, at.OWNER) if standing == ANSWERED else 0


def kind_of(table, place):
    """The queue that a link, or an end, at this place is of."""
    sort, number, word = table.where(place)
    if sort == at.HEADER_SORT:
        return running_queue(table)
    if sort == at.SEMAPHORE_SORT:
        return semaphore_queue(table, number)
    if sort == at.BUFFER_SORT:
        return event_queue(table, event_home(table, number))
    if word in (at.FIRST, at.LAST):
        return event_queue(table, number)
    return semaphore_queue(table, table.process(number, at.SEMAPHORE)) if table.process(number, at.STATE) == FOR_SEMAPHORE else running_queue(table)


def followed(table, queue):
    """The records met from the queue's first on, each once, and where that broke off: the place of the link that leads astray, or None
    where the queue comes to its end."""
    passed, place, before = [], queue.ends, 0
    while (record := table.word(place)) != 0:
        if record not in queue.members or record in passed:
            return passed, place
        links = table.process_place(record, at.NEXT) if queue.sort == at.PROCESS_SORT else table.buffer_place(record, at.NEXT)
        if table.word(links + 1) != before:
            return passed, links + 1
        passed.append(record)
        place, before = links, record
    return passed, None if table.word(queue.ends + 1) == before else queue.ends + 1


def listed(numbers):
    """Numbers as a person lists them."""
    return ", ".join(map(str, numbers[:-1])) + (" and " if len(numbers) > 1 else "") + str(numbers[-1])
