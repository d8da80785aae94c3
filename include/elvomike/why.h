/*
 * Why a table isn't sound, for C and C++ programs on x86-64 (System V): the first sentence that the words
 * break of those that make a table sound, at which record, and the word that is named.
 *
 * Link with libelvomike-why.a, beside libelvomike-trap.a or without it. The table is the one of monitor.h, and it is only
 * read. Any words at all may be lent, links in circles included. It is a plain check in no hurry, for the
 * bench and for a station that has been refused with MONITOR_TABLE_NOT_SOUND; it tells clause 0 exactly of
 * the tables that monitor_sound gives 1 for.
 *
 *     struct monitor_fault fault = monitor_why(table, words);
 *     if (fault.clause != MONITOR_SOUND)
 *         printf("%s (%s %u, word %u)\n", monitor_clause_text(fault.clause),
 *                monitor_clause_record(fault.clause), fault.record, fault.place);
 *
 * The table is counted in words. The pointer may not be NULL, not even one to no words.
 */
#ifndef WHY_H
#define WHY_H

#include "monitor.h"

#ifdef __cplusplus
extern "C" {
#endif

/* What is told of lent words; of a sound table all three are 0. Every clause before the one told holds of all
 * its records, and the one told of every record before. Records count from 1: monitor_clause_record says of
 * what. A device's is its number plus 1; those of the header words 6 and 7 are 1 and 2. */
struct monitor_fault {
    uint16_t clause; /* an enum monitor_clause */
    uint16_t record;
    uint16_t place; /* index of the word that is named; the number of words where there are too few */
};

struct monitor_fault monitor_why(const uint16_t *table, size_t table_words);

/* The clauses of a sound table, in the order in which they are asked. */
enum monitor_clause {
    MONITOR_SOUND = 0,
    MONITOR_CLAUSE_HEADER = 1,
    MONITOR_CLAUSE_PROCESSES = 2,
    MONITOR_CLAUSE_BUFFERS = 3,
    MONITOR_CLAUSE_SEMAPHORES = 4,
    MONITOR_CLAUSE_WORDS = 5,
    MONITOR_CLAUSE_EDITION = 6,
    MONITOR_CLAUSE_HEADER_ZERO = 7,
    MONITOR_CLAUSE_SEMAPHORE_ZERO = 8,
    MONITOR_CLAUSE_PRIORITY = 9,
    MONITOR_CLAUSE_NAME = 10,
    MONITOR_CLAUSE_NAME_TWICE = 11,
    MONITOR_CLAUSE_FIRST_OWN = 12,
    MONITOR_CLAUSE_ALL_OWNED = 13,
    MONITOR_CLAUSE_OWNER = 14,
    MONITOR_CLAUSE_RUNNING_FIRST = 15,
    MONITOR_CLAUSE_RUNNING_LAST = 16,
    MONITOR_CLAUSE_RUNNING_START = 17,
    MONITOR_CLAUSE_RUNNING_NEXT = 18,
    MONITOR_CLAUSE_RUNNING_BACK = 19,
    MONITOR_CLAUSE_RUNNING_MET = 20,
    MONITOR_CLAUSE_PRIORITY_RISES = 21,
    MONITOR_CLAUSE_PROCESS_LINKED = 22,
    MONITOR_CLAUSE_EVENT_FIRST = 23,
    MONITOR_CLAUSE_EVENT_LAST = 24,
    MONITOR_CLAUSE_EVENT_START = 25,
    MONITOR_CLAUSE_EVENT_NEXT = 26,
    MONITOR_CLAUSE_EVENT_BACK = 27,
    MONITOR_CLAUSE_EVENT_MET = 28,
    MONITOR_CLAUSE_BUFFER_LINKED = 29,
    MONITOR_CLAUSE_STANDING = 30,
    MONITOR_CLAUSE_FREE = 31,
    MONITOR_CLAUSE_RECEIVER = 32,
    MONITOR_CLAUSE_WAITING_FIRST = 33,
    MONITOR_CLAUSE_WAITING_LAST = 34,
    MONITOR_CLAUSE_WAITING_START = 35,
    MONITOR_CLAUSE_WAITING_NEXT = 36,
    MONITOR_CLAUSE_WAITING_BACK = 37,
    MONITOR_CLAUSE_WAITING_MET = 38,
    MONITOR_CLAUSE_COUNTER = 39,
    MONITOR_CLAUSE_STATE = 40,
    MONITOR_CLAUSE_REASON = 41,
    MONITOR_CLAUSE_REASON_LEFT = 42,
    MONITOR_CLAUSE_AWAITED_SEMAPHORE = 43,
    MONITOR_CLAUSE_EVENT_THERE = 44,
    MONITOR_CLAUSE_AWAITED_BUFFER = 45,
    MONITOR_CLAUSE_AWAITED_DEVICE = 46,
    MONITOR_CLAUSE_DELAY = 47,
    MONITOR_CLAUSE_DEVICE = 48
};

/* What is said where a clause fails, in a person's words; of another number, that it has no name here. */
static inline const char *monitor_clause_text(unsigned clause)
{
    switch (clause) {
    case MONITOR_SOUND: return "the table is sound";
    case MONITOR_CLAUSE_HEADER: return "there are fewer words than the 72 of a header";
    case MONITOR_CLAUSE_PROCESSES: return "the number of processes isn't 1 to 32";
    case MONITOR_CLAUSE_BUFFERS: return "the number of buffers isn't 0 to 128";
    case MONITOR_CLAUSE_SEMAPHORES: return "the number of semaphores isn't 0 to 16";
    case MONITOR_CLAUSE_WORDS: return "there are fewer words than the header tells";
    case MONITOR_CLAUSE_EDITION: return "the edition isn't 0 or 1";
    case MONITOR_CLAUSE_HEADER_ZERO: return "header word 6 or 7 isn't zero";
    case MONITOR_CLAUSE_SEMAPHORE_ZERO: return "a semaphore's last word isn't zero";
    case MONITOR_CLAUSE_PRIORITY: return "a priority isn't 1 to 255";
    case MONITOR_CLAUSE_NAME: return "a name isn't legal";
    case MONITOR_CLAUSE_NAME_TWICE: return "a name is that of a process before";
    case MONITOR_CLAUSE_FIRST_OWN: return "own buffers don't begin right behind those of the processes before";
    case MONITOR_CLAUSE_ALL_OWNED: return "the processes own more or fewer buffers than there are";
    case MONITOR_CLAUSE_OWNER: return "a buffer's owner isn't the process among whose own it stands";
    case MONITOR_CLAUSE_RUNNING_FIRST: return "the first of the running queue doesn't run";
    case MONITOR_CLAUSE_RUNNING_LAST: return "the last of the running queue doesn't run";
    case MONITOR_CLAUSE_RUNNING_START: return "the first of the running queue has one before it";
    case MONITOR_CLAUSE_RUNNING_NEXT: return "behind a process that runs stands one that doesn't";
    case MONITOR_CLAUSE_RUNNING_BACK: return "what is behind a process that runs doesn't lead back to it";
    case MONITOR_CLAUSE_RUNNING_MET: return "a process runs and isn't in the running queue";
    case MONITOR_CLAUSE_PRIORITY_RISES: return "a priority rises along the running queue";
    case MONITOR_CLAUSE_PROCESS_LINKED: return "a process that is in no queue has a neighbour";
    case MONITOR_CLAUSE_EVENT_FIRST: return "the first of an event queue doesn't belong there";
    case MONITOR_CLAUSE_EVENT_LAST: return "the last of an event queue doesn't belong there";
    case MONITOR_CLAUSE_EVENT_START: return "the first of an event queue has one before it";
    case MONITOR_CLAUSE_EVENT_NEXT: return "behind a buffer of an event queue stands one that doesn't belong there";
    case MONITOR_CLAUSE_EVENT_BACK: return "what is behind a buffer of an event queue doesn't lead back to it";
    case MONITOR_CLAUSE_EVENT_MET: return "a buffer belongs in an event queue and isn't there";
    case MONITOR_CLAUSE_BUFFER_LINKED: return "a buffer that is in no event queue has a neighbour";
    case MONITOR_CLAUSE_STANDING: return "a standing isn't 0 to 4";
    case MONITOR_CLAUSE_FREE: return "a free buffer has a receiver, an age or a message";
    case MONITOR_CLAUSE_RECEIVER: return "a receiver is no process, or the owner";
    case MONITOR_CLAUSE_WAITING_FIRST: return "the first in a semaphore's queue doesn't wait for it";
    case MONITOR_CLAUSE_WAITING_LAST: return "the last in a semaphore's queue doesn't wait for it";
    case MONITOR_CLAUSE_WAITING_START: return "the first in a semaphore's queue has one before it";
    case MONITOR_CLAUSE_WAITING_NEXT: return "behind a process that waits for a semaphore stands one that doesn't";
    case MONITOR_CLAUSE_WAITING_BACK: return "what is behind a process that waits for a semaphore doesn't lead back to it";
    case MONITOR_CLAUSE_WAITING_MET: return "a process waits for a semaphore and isn't in its queue";
    case MONITOR_CLAUSE_COUNTER: return "a semaphore's counter doesn't say how many wait";
    case MONITOR_CLAUSE_STATE: return "a state isn't 0 to 5";
    case MONITOR_CLAUSE_REASON: return "a reason isn't 0 to 3 or 5";
    case MONITOR_CLAUSE_REASON_LEFT: return "a process that doesn't run has a reason";
    case MONITOR_CLAUSE_AWAITED_SEMAPHORE: return "the semaphore that a process names doesn't go with its state";
    case MONITOR_CLAUSE_EVENT_THERE: return "a process waits for an event and has one";
    case MONITOR_CLAUSE_AWAITED_BUFFER: return "the buffer that a process names doesn't go with its state";
    case MONITOR_CLAUSE_AWAITED_DEVICE: return "the device that a process names doesn't go with its state";
    case MONITOR_CLAUSE_DELAY: return "a process that waits for no event and no interrupt has a delay";
    case MONITOR_CLAUSE_DEVICE: return "a device's word names none that waits for it, or keeps an interrupt in the first edition";
    default: return "a clause that has no name here";
    }
}

/* Of what a clause's records are; "table" for those of the header and for the running queue as a whole. */
static inline const char *monitor_clause_record(unsigned clause)
{
    static const unsigned char last[] = {7, 8, 12, 13, 14, 17, 25, 32, 35, 38, 39, 47, 48};
    static const char *const record[] = {"table",  "semaphore", "process", "table",     "buffer",  "table", "process",
                                         "buffer", "semaphore", "process", "semaphore", "process", "device"};
    size_t i;
    for (i = 0; i < sizeof last; i++)
        if (clause <= last[i]) return record[i];
    return "record";
}

#ifdef __cplusplus
}
#endif

#endif
