/*
 * A second implementation of docs/MONITOR.md, to run beside the proved one:
 * written from the text alone, in the plainest way, with no care for speed. The shapes are those of
 * include/elvomike/monitor.h. Assumes nothing of the words lent.
 */
#ifndef SECOND_H
#define SECOND_H

#include <stdbool.h>

#include "elvomike/monitor.h"

void second_trap(uint16_t *table, size_t table_words, uint16_t *room, size_t room_words,
                 struct monitor_registers *registers);
/* How far the last call walked. */
extern struct monitor_walk second_walk;
uint16_t second_layout(const uint16_t *list, size_t list_words, uint16_t edition,
                       const uint16_t *counters, size_t counter_words, uint16_t *table,
                       size_t table_words);
bool second_sound(const uint16_t *table, size_t table_words);

/* How many buffers a list gives out, and its table laid out without asking whether it may be. */
unsigned second_owned(const uint16_t *list, size_t list_words);
void second_lay(const uint16_t *list, unsigned processes, unsigned buffers, unsigned edition,
                const uint16_t *counters, unsigned semaphores, uint16_t *table);

/* Whether three words are a legal name. */
bool second_name(const uint16_t *name);

/* The words of the table by their places (docs/MONITOR.md, 2). */
enum {
    HEADER_P,
    HEADER_B,
    HEADER_FIRST,
    HEADER_LAST,
    HEADER_EDITION,
    HEADER_SEMAPHORES,
    HEADER_ZEROS,
    HEADER_DEVICES = 8
};
enum {
    PROCESS_NEXT,
    PROCESS_PREVIOUS,
    PROCESS_FIRST,
    PROCESS_LAST,
    PROCESS_STATE,
    PROCESS_REASON,
    PROCESS_DELAY,
    PROCESS_AWAITED,
    PROCESS_DEVICE,
    PROCESS_PRIORITY,
    PROCESS_OWN,
    PROCESS_OWNS,
    PROCESS_NAME,
    PROCESS_SEMAPHORE = 15
};
enum {
    BUFFER_NEXT,
    BUFFER_PREVIOUS,
    BUFFER_OWNER,
    BUFFER_RECEIVER,
    BUFFER_STANDING,
    BUFFER_AGE,
    BUFFER_WORDS
};
enum { SEMAPHORE_COUNTER, SEMAPHORE_FIRST, SEMAPHORE_LAST, SEMAPHORE_ZERO };

/* Where word i of process p, of buffer b, and of semaphore s, stands. */
static inline size_t process_place(unsigned p, unsigned i)
{
    return 72 + 16 * (size_t)(p - 1) + i;
}

static inline size_t buffer_place(unsigned processes, unsigned b, unsigned i)
{
    return 72 + 16 * (size_t)processes + 10 * (size_t)(b - 1) + i;
}

static inline size_t semaphore_place(unsigned processes, unsigned buffers, unsigned s, unsigned i)
{
    return 72 + 16 * (size_t)processes + 10 * (size_t)buffers + 4 * (size_t)(s - 1) + i;
}

/* The same as an lvalue of table t, whose words 0 and 1 give the numbers of processes and buffers. */
#define PROCESS(t, p, i) ((t)[process_place((p), (i))])
#define BUFFER(t, b, i) ((t)[buffer_place((t)[HEADER_P], (b), (i))])
#define SEMAPHORE(t, s, i) ((t)[semaphore_place((t)[HEADER_P], (t)[HEADER_B], (s), (i))])
#define DEVICE(t, d) ((t)[HEADER_DEVICES + (d)])

/* "The counter is a signed 16-bit number": that of semaphore s. */
static inline int counter_of(const uint16_t *t, unsigned s)
{
    int word = SEMAPHORE(t, s, SEMAPHORE_COUNTER);
    return word < 32768 ? word : word - 65536;
}

#endif
