"""What a station is laid out with: its processes with their names and buffers, its edition and its counters; and why a layout
is refused."""

from collections import namedtuple

MOST_PROCESSES, MOST_BUFFERS, MOST_SEMAPHORES, MOST_COUNTER = 32, 128, 16, 32767

# One layout line: its place in the log, the priority, how many buffers, the three name words.
Entry = namedtuple("Entry", "place priority buffers name")

# What a station has beside its processes: its edition's number, as header word 4 has it, and the counters that its semaphores
# begin with. The replay has the first edition, whose number is 0, and no semaphores.
Outfit = namedtuple("Outfit", "edition counters", defaults=(0, ()))
PLAIN = Outfit()


def entry_of(line):
    """The entry that a layout line of the log gives."""
    call = line.call
    return Entry(line.place, call.a, call.b, call.words[:3])


def name_bytes(words):
    """The six bytes of a name, left byte first."""
    return b"".join(word.to_bytes(2, "big") for word in words)


def plain_name(words):
    """A process's name where it can be printed and begins with a letter or digit, or None."""
    letters = name_bytes(words).rstrip(b"\0")
    is_plain = letters[:1].isalnum() and all(0x21 <= byte <= 0x7E for byte in letters)
    return letters.decode("ascii") if is_plain else None


def numbered(number):
    """What a process without a plain name, or one there isn't, is called."""
    return f"#{number}"


def shown_name(number, words):
    """What a process is called: its name, or its number where the name isn't plain."""
    return plain_name(words) or numbered(number)


def spoilt_told(line):
    """That a line looks like a layout line and is none, and what comes of it, as sentences; none where there is no such line."""
    if line is None:
        return []
    return [f"line {line.place} looks like a layout line and is none: {line.fault}. So the processes behind it, and their buffers, may have "
            "other numbers and names than those of the station."]


def own_buffers(entries):
    """For each process, by number from 1, the numbers of its buffers."""
    owned, first = {}, 1
    for number, entry in enumerate(entries, 1):
        owned[number] = range(first, first + entry.buffers)
        first += entry.buffers
    return owned


def name_fault(words):
    """What is wrong with a name by itself, or None."""
    letters = name_bytes(words)
    if letters[0] == 0:
        return "its name is empty" if not any(letters) else "its name begins with a zero byte"
    if 0 in letters.rstrip(b"\0"):
        return "its name has a zero byte inside"
    return "its name has six letters where five are the most" if letters[5] else None


def entry_faults(entry, twin):
    """What is wrong with one entry; the twin is the number of an earlier process of the same name, or None."""
    if not 1 <= entry.priority <= 255:
        yield f"its priority is {entry.priority}, and priorities go from 1 to 255"
    fault = name_fault(entry.name)
    if fault:
        yield fault
    if twin:
        yield f"process {twin} has the same name"


def refusal_reasons(entries):
    """Why a layout of these entries is refused with 11, a sentence each; none if it is accepted."""
    if not entries:
        return ["There is no layout line."]
    reasons = []
    if len(entries) > MOST_PROCESSES:
        reasons.append(f"There are {len(entries)} processes, and 32 are the most.")
    buffers = sum(entry.buffers for entry in entries)
    if buffers > MOST_BUFFERS:
        reasons.append(f"The processes have {buffers} buffers together, and 128 are the most.")
    bearer = {}
    for number, entry in enumerate(entries, 1):
        name = plain_name(entry.name)
        title = f"Process {number}{', ' + name if name else ''} (line {entry.place})"
        reasons += [f"{title}: {fault}." for fault in entry_faults(entry, bearer.get(entry.name))]
        bearer.setdefault(entry.name, number)
    return reasons
