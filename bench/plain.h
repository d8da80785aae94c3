/*
 * A straightforward monitor in C, to measure the proved one by: docs/MONITOR.md with one linear check of
 * the table in each call but the quick ones. It defines the functions of include/elvomike/monitor.h and quick.h itself,
 * so that the same programs link with it or with the archives.
 */
#ifndef PLAIN_H
#define PLAIN_H

#include <stdbool.h>

#include "elvomike/monitor.h"

/* A slip that the monitor is to make, for bench/rates: one of those easily made (docs/MONITOR.md, 6). Unless SLIP is defined as one of
 * them it makes none. */
enum {
    SLIP_NONE,
    SLIP_HELD_FREED,      /* a held buffer is freed when its owner is cleaned */
    SLIP_STRANGER_WOKEN,  /* an owner is woken that waits for another buffer */
    SLIP_LEFT_WAITING,    /* whoever waits isn't woken when its conversation is withdrawn */
    SLIP_ORPHAN_DELIVERED /* the answer to an orphan is delivered */
};
#ifndef SLIP
#define SLIP SLIP_NONE
#endif

/* The records as they stand in the table's words. */
struct process {
    uint16_t next, previous, first, last, state, reason, delay, awaited, device;
    uint16_t priority, own, owns, name[3], semaphore;
};
struct buffer {
    uint16_t next, previous, owner, receiver, standing, age, word[4];
};
struct semaphore {
    int16_t counter;
    uint16_t ends[2], zero; /* the first waiter and the last */
};
struct header {
    uint16_t processes, buffers, ends[2], edition, semaphores, zero[2], device[MONITOR_DEVICES];
};

/* The ends of a queue of processes: the running queue's, or a semaphore's. */
enum { FIRST, LAST };

/* A table seen as its records; the arrays go by number, so that their element 0 isn't there. */
struct table {
    struct header *header;
    struct process *process;
    struct buffer *buffer;
    struct semaphore *semaphore;
};

static inline struct table table_of(uint16_t *words)
{
    struct table t = {.header = (struct header *)words};
    t.process = (struct process *)(words + 72) - 1;
    t.buffer = (struct buffer *)(words + 72 + 16 * words[0]) - 1;
    t.semaphore = (struct semaphore *)(t.buffer + words[1] + 1) - 1;
    return t;
}

/* Whether the words are a sound table. */
bool plain_sound(const uint16_t *words, size_t count);

/* A name as one number, and whether it is legal. */
static inline uint64_t name_number(const uint16_t *name)
{
    return (uint64_t)name[0] << 32 | (uint64_t)name[1] << 16 | name[2];
}

/* The first byte isn't zero, the last is, and none is zero before the trailing zeros. */
static inline bool name_legal(uint64_t name)
{
    uint64_t filled = name | ((name & -name) - 1);
    uint64_t zero_bytes = (filled - 0x010101010101u) & ~filled & 0x808080808080u;
    return name >> 40 != 0 && (name & 0xFF) == 0 && zero_bytes == 0;
}

/* Names met so far; one whose mark is new needs no comparing. */
struct names {
    uint64_t marks[4];
    unsigned count;
    uint64_t name[MONITOR_PROCESSES_MOST];
};

/* Adds a name; false if it was there. */
static inline bool name_added(struct names *names, uint64_t name)
{
    uint64_t mixed = name * 0x9E3779B97F4A7C15u >> 56, mark = (uint64_t)1 << (mixed & 63);
    if (names->marks[mixed >> 6] & mark)
        for (unsigned i = 0; i < names->count; i++)
            if (names->name[i] == name) return false;
    names->marks[mixed >> 6] |= mark;
    names->name[names->count++] = name;
    return true;
}

#endif
