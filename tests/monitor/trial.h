/*
 * One call or layout with everything lent to it, what came of it, and both as a line of text: the
 * lines of tests/vectors/direct.txt and layout.txt. Assumes nothing of the words.
 */
#ifndef TRIAL_H
#define TRIAL_H

#include <stdbool.h>
#include <stdio.h>

#include "elvomike/monitor.h"

/* The most words a trial lends: more than the largest table, listing and list need. */
enum { TABLE_MOST = 2048 };

struct run {
    size_t words;
    uint16_t word[TABLE_MOST];
};

struct trial {
    bool layout; /* a layout of 'list' and 'counters' in 'edition', or the call in 'registers' */
    uint16_t edition;
    struct monitor_registers registers;
    struct run table, room, list, counters;
};

/* What a trial leaves behind; a layout's number stands in the registers. */
struct outcome {
    struct monitor_registers registers;
    struct run table, room;
    struct monitor_walk walk; /* 0 where the entry tried doesn't tell it */
    bool outside;             /* something was written before a lent run, or to a list */
};

/* The entry tried, in entry_trap.c or entry_walks.c, and whether it tells the walk. */
extern const bool walk_told;
void entry(uint16_t *table, size_t table_words, uint16_t *room, size_t room_words,
           struct monitor_registers *registers, struct monitor_walk *walk);

/* Does the trial by the archive's functions, on fenced words, or by the second implementation's. */
void by_archive(const struct trial *trial, struct outcome *outcome);
void by_second(const struct trial *trial, struct outcome *outcome);

bool same_run(const struct run *x, const struct run *y);
bool same_outcome(const struct outcome *x, const struct outcome *y);

/* Writes a trial with an outcome as a line that 'vectors' reads; with none, the trial's part. */
void write_line(FILE *to, const struct trial *trial, const struct outcome *outcome);

#endif
