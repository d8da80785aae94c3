"""The clauses of a sound table by number: what is said where one fails, as include/elvomike/why.h has it, and the sentence of docs/MONITOR.md, 3
that it is a part of."""

TEXTS = (
    "the table is sound",
    "there are fewer words than the 72 of a header",
    "the number of processes isn't 1 to 32",
    "the number of buffers isn't 0 to 128",
    "the number of semaphores isn't 0 to 16",
    "there are fewer words than the header tells",
    "the edition isn't 0 or 1",
    "header word 6 or 7 isn't zero",
    "a semaphore's last word isn't zero",
    "a priority isn't 1 to 255",
    "a name isn't legal",
    "a name is that of a process before",
    "own buffers don't begin right behind those of the processes before",
    "the processes own more or fewer buffers than there are",
    "a buffer's owner isn't the process among whose own it stands",
    "the first of the running queue doesn't run",
    "the last of the running queue doesn't run",
    "the first of the running queue has one before it",
    "behind a process that runs stands one that doesn't",
    "what is behind a process that runs doesn't lead back to it",
    "a process runs and isn't in the running queue",
    "a priority rises along the running queue",
    "a process that is in no queue has a neighbour",
    "the first of an event queue doesn't belong there",
    "the last of an event queue doesn't belong there",
    "the first of an event queue has one before it",
    "behind a buffer of an event queue stands one that doesn't belong there",
    "what is behind a buffer of an event queue doesn't lead back to it",
    "a buffer belongs in an event queue and isn't there",
    "a buffer that is in no event queue has a neighbour",
    "a standing isn't 0 to 4",
    "a free buffer has a receiver, an age or a message",
    "a receiver is no process, or the owner",
    "the first in a semaphore's queue doesn't wait for it",
    "the last in a semaphore's queue doesn't wait for it",
    "the first in a semaphore's queue has one before it",
    "behind a process that waits for a semaphore stands one that doesn't",
    "what is behind a process that waits for a semaphore doesn't lead back to it",
    "a process waits for a semaphore and isn't in its queue",
    "a semaphore's counter doesn't say how many wait",
    "a state isn't 0 to 5",
    "a reason isn't 0 to 3 or 5",
    "a process that doesn't run has a reason",
    "the semaphore that a process names doesn't go with its state",
    "a process waits for an event and has one",
    "the buffer that a process names doesn't go with its state",
    "the device that a process names doesn't go with its state",
    "a process that waits for no event and no interrupt has a delay",
    "a device's word names none that waits for it, or keeps an interrupt in the first edition",
)

# The bullets of docs/MONITOR.md, 3, each with its sentences, and the last clause of each sentence.
BULLETS = (
    ("Size", ((5, "There are at least as many words as the used length that words 0, 1 and 5 tell; P is 1 to 32, B 0 to 128 and S 0 to 16."),)),
    ("Fixed words", ((8, "Header word 4 is 0 or 1, words 6 and 7 and every semaphore's word 3 are 0."), (9, "Priorities are 1 to 255."),
                     (11, "Names are legal (section 4), and no two processes have the same."))),
    ("Own buffers", ((14, "They stand together, process by process in their order: word 10 is one more than all the buffers of the processes before, or "
                          "0 where word 11 is 0; all B are given out; and each buffer's owner is the process whose run it stands in."),)),
    ("The running queue", ((21, "The running queue holds exactly the processes in state 1, each once, linked both ways, and priorities never rise along it."),
                           (22, "A process that is in no queue has words 0 and 1 zero."))),
    ("The event queue", ((28, "The event queue of p holds exactly the buffers of standing 1 with receiver p and those of standing 3 with owner p, each once, "
                              "linked both ways."), (29, "Any other buffer has words 0 and 1 zero."))),
    ("Buffers", ((30, "Standing is 0 to 4."), (31, "A free one has receiver, age and message words 0."),
                 (32, "Any other has a receiver that is a process and not its owner; its age and words may be anything."))),
    ("Semaphores", ((38, "A semaphore's queue holds exactly the processes in state 5 whose word 15 names it, each once, linked both ways."),
                    (39, "A counter below zero is minus the number waiting; at any other nobody waits."))),
    ("Processes", ((42, "State is 0 to 5, reason 0 to 3 or 5, and reason is 0 outside state 1."),
                   (43, "In state 5 word 15 names a semaphore; in any other state it is 0."), (44, "In state 2 the event queue is empty."),
                   (45, "In state 3 word 7 names an own buffer of standing 1 or 2; in any other state it is 0."),
                   (46, "In state 4 word 8 names a device, and that device's word names the process; in any other state word 8 is 0."),
                   (47, "The delay is 0 outside states 2 and 4."))),
    ("Devices", ((48, "A device word is 0, or names a process in state 4 whose word 8 names that device; or it is FFFF, in edition 1 only."),)),
)


def broken(clause):
    """The bullet of docs/MONITOR.md, 3 that a clause belongs to, and the sentence."""
    return next((bullet, sentence) for bullet, sentences in BULLETS for last, sentence in sentences if clause <= last)
