/*
 * What the side by side runs are made of: lists and counters good and bad, sound tables in rich states,
 * tables with something wrong, and calls that fit a table more or less. All drawn at random.
 */
#ifndef MAKE_H
#define MAKE_H

#include "trial.h"

/* A list that can be laid out, and one that can't (or can, now and then, by luck). */
void make_list(struct run *list);
void make_bad_list(struct run *list);

/* Counters that can be laid out, often none, and some that can't. */
void make_counters(struct run *counters);
void make_bad_counters(struct run *counters);

/* A table of the lists just laid out in one of the two editions, whether it may be or not; of no
 * processes if the list is far too long. Words beyond the used length are lent as well at times. */
void make_laid_out(struct run *table, const struct run *list, const struct run *counters);

/* A table just laid out of lists that can be. */
void make_table(struct run *table);

/* A laid-out table put in any sound state, also one that no calls lead to. */
void furnish(uint16_t *t);

/* Puts something wrong into a sound table: words changed, records misfiled, a free buffer with an age,
 * another edition or an interrupt kept, a counter or a waiter that doesn't fit, the end cut off, another table
 * altogether. It may stay sound by luck. */
void spoil(struct run *table);

/* How likely each call is in a stretch of calls on one table; number 0 stands for any that isn't one. */
enum { CALL_NUMBERS = MONITOR_RAISE + 1 };
struct mood {
    unsigned weight[CALL_NUMBERS];
};
struct mood make_mood(void);

/* A call with its room, mostly one that fits the sound table t. */
void make_call(const uint16_t *t, const struct mood *mood, struct monitor_registers *registers,
               struct run *room);

#endif
