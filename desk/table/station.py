"""The station that a table's words show, in words: who runs, who waits for what, each queue in order, each conversation with its age and
words, semaphores and kept interrupts.

Of a table that isn't sound it tells what can be read, and marks what contradicts other words: a part is marked by UNSOUND where a word
of it names nothing that is there, or a queue followed leads astray. Assumes the size that the header tells.
"""

from desk.log.refusals import plural
from desk.log.station import ANSWERED, FOR_ANSWER, FOR_EVENT, FOR_INTERRUPT, FOR_SEMAPHORE, FREE, HELD, QUEUED, RUNNING, STANDINGS, STOPPED
from desk.log.words import aged, limit, spelled
from desk.table import words as at
from desk.table.because import SIGNED, does
from desk.table.following import event_queue, followed, running_queue, semaphore_queue

UNSOUND = "!"
REASONS = {1: "woken by an event", 2: "woken as its delay ran out", 3: "woken by an interrupt", 5: "woken by a raise"}


def marked(sentence, is_right):
    """A sentence, marked where it can't be right."""
    return sentence if is_right else f"{UNSOUND} {sentence}"


def names(table, numbers):
    """Some processes by name."""
    return ", ".join(table.process_name(p) for p in numbers)


def astray(table, queue, passed, place):
    """That a queue, followed, leads astray; nothing where it comes to its end with all that belong there."""
    lost = [x for x in queue.members if x not in passed]
    missed = names(table, lost) if queue.sort == at.PROCESS_SORT else ", ".join(f"buffer {b}" for b in lost)
    ends = f"; word {place} leads astray" if place is not None else ""
    return ends + (f"; not met: {missed}" if lost else "")


def running_told(table):
    """Who runs, in the queue's order, and who is stopped."""
    queue = running_queue(table)
    passed, place = followed(table, queue)
    wrong = astray(table, queue, passed, place)
    if passed:
        behind = f"; ready behind it: {names(table, passed[1:])}" if passed[1:] else ""
        yield marked(f"{table.process_name(passed[0])} runs{behind}{wrong}.", not wrong)
    else:
        yield marked(f"Nobody runs{wrong}.", not wrong)
    woken = [(p, REASONS.get(table.process(p, at.REASON))) for p in passed]
    yield from (f"{table.process_name(p)} was {reason}." for p, reason in woken if reason)
    stopped = [p for p in range(1, table.processes + 1) if table.process(p, at.STATE) == STOPPED]
    if stopped:
        yield f"Stopped: {names(table, stopped)}."


def answer_told(table, p):
    """Which answer a process waits for, and whether it can come."""
    b = table.process(p, at.AWAITED)
    if not 1 <= b <= table.buffers:
        return f"the answer to buffer {b}, which there is not", False
    standing, is_own = table.buffer(b, at.STANDING), table.buffer(b, at.OWNER) == p
    where = {QUEUED: "queued at", HELD: "held by"}.get(standing)
    if where and is_own:
        return f"the answer to buffer {b}, {where} {table.process_name(table.buffer(b, at.RECEIVER))}", True
    return f"the answer to buffer {b}, which is {STANDINGS[standing] if standing < len(STANDINGS) else f'of standing {standing}'}" + (
        "" if is_own else ", and not its own"), False


def wait_told(table, p):
    """What a process waits for, and whether the other words agree; None where it doesn't wait."""
    state, delay = table.process(p, at.STATE), table.process(p, at.DELAY)
    if state == FOR_EVENT:
        return f"an event{limit(delay)}", table.process(p, at.FIRST) == 0
    if state == FOR_ANSWER:
        return answer_told(table, p)
    if state == FOR_INTERRUPT:
        device = table.process(p, at.DEVICE) - 1
        return f"device {device}{limit(delay)}", 0 <= device < at.DEVICES and table.device(device) == p
    if state == FOR_SEMAPHORE:
        s = table.process(p, at.SEMAPHORE)
        return f"semaphore {s}", 1 <= s <= table.semaphores
    return None


def waits_told(table):
    """Who waits for what."""
    for p in range(1, table.processes + 1):
        if wait := wait_told(table, p):
            yield marked(f"{table.process_name(p)} for {wait[0]}.", wait[1])
        elif table.process(p, at.STATE) not in (STOPPED, RUNNING):
            yield marked(f"{table.process_name(p)} {does(table, p)}.", False)


def event_told(table, b):
    """A buffer of an event queue, in short."""
    owner, receiver = (table.process_name(table.buffer(b, word)) for word in (at.OWNER, at.RECEIVER))
    return f"buffer {b}, an answer from {receiver}" if table.buffer(b, at.STANDING) == ANSWERED else f"buffer {b}, a message from {owner}"


def events_told(table):
    """Each event queue that has something in it, in its order."""
    for p in range(1, table.processes + 1):
        queue = event_queue(table, p)
        passed, place = followed(table, queue)
        wrong = astray(table, queue, passed, place)
        if passed or wrong:
            in_order = "; ".join(event_told(table, b) for b in passed) or "nothing"
            yield marked(f"{table.process_name(p)}: {in_order}{wrong}.", not wrong)


def open_told(table):
    """Each conversation with its age and words."""
    for b in range(1, table.buffers + 1):
        owner, receiver, standing, age = (table.buffer(b, word) for word in (at.OWNER, at.RECEIVER, at.STANDING, at.AGE))
        message = tuple(table.buffer(b, at.MESSAGE + i) for i in range(4))
        is_right = standing < len(STANDINGS) and all(1 <= p <= table.processes for p in (owner, receiver)) and owner != receiver
        if standing != FREE:
            old = f", {aged(age)} old" if age else ""
            called = STANDINGS[standing] if standing < len(STANDINGS) else f"of standing {standing}"
            yield marked(f"{b} {table.process_name(owner)}>{table.process_name(receiver)} {called}{old}: {spelled(message)}.", is_right)
        elif receiver or age or any(message):
            yield marked(f"{b} is free, and has a receiver, an age or words.", False)


def free_told(table):
    """How many buffers are free."""
    free = sum(table.buffer(b, at.STANDING) == FREE for b in range(1, table.buffers + 1))
    if table.buffers:
        yield f"{free or 'none'} of {plural(table.buffers, 'buffer')}."


def semaphores_told(table):
    """Each semaphore with its counter and its waiters, the longest first."""
    for s in range(1, table.semaphores + 1):
        queue, word = semaphore_queue(table, s), table.semaphore(s, at.COUNTER)
        passed, place = followed(table, queue)
        wrong = astray(table, queue, passed, place)
        counter = word - 0x10000 if word >= SIGNED else word
        waiting = f", {names(table, passed)} waiting" if passed else ""
        yield marked(f"semaphore {s}: {counter}{waiting}{wrong}.", not wrong and max(-counter, 0) == len(queue.members))


def kept_told(table):
    """For which devices an interrupt is kept."""
    kept = [str(d) for d in range(at.DEVICES) if table.device(d) == at.KEPT]
    if kept:
        yield marked(f"an interrupt from {'device' if len(kept) == 1 else 'devices'} {', '.join(kept)}.", table.word(at.EDITION) == 1)


def size_told(table):
    """What there is, and how many words lie beyond."""
    beyond = len(table.words) - table.used
    more = f", and {plural(beyond, 'word')} beyond it that nobody reads" if beyond else ""
    yield (f"{at.processes_told(table)}, {plural(table.buffers, 'buffer')}, "
           f"{plural(table.semaphores, 'semaphore')}, edition {table.word(at.EDITION)}: {table.used} words{more}.")


def parts(table):
    """The parts of the station that have something to say: a label each, and sentences."""
    told = (("size", size_told), ("running", running_told), ("waiting", waits_told), ("queues", events_told), ("open", open_told),
            ("free", free_told), ("counters", semaphores_told), ("kept", kept_told))
    found = [(label, list(sentences(table))) for label, sentences in told]
    return [(label, sentences) for label, sentences in found if sentences]
