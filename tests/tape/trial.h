/*
 * One input operation with everything lent to it, and what came of it. Assumes nothing of the bytes and
 * words lent.
 */
#ifndef TAPE_TRIAL_H
#define TAPE_TRIAL_H

#include <stdbool.h>
#include <stdio.h>

#include "elvomike/tape.h"

/* The most that a trial lends. */
enum { TAPE_MOST = 256, AREA_MOST = 256, TABLE_MOST = 70000 };

struct trial {
    uint16_t mode;
    int32_t base;
    size_t tape_bytes, table_words, area_bytes;
    uint8_t tape[TAPE_MOST], area[AREA_MOST];
    uint16_t table[TABLE_MOST];
};

struct outcome {
    struct tape_taken taken;
    uint8_t area[AREA_MOST];
    bool outside; /* something was written before the area */
};

/* An implementation of tape_read. */
typedef struct tape_taken reader(uint16_t mode, const uint8_t *tape, size_t tape_bytes,
                                 const uint16_t *table, size_t table_words, int32_t base,
                                 uint8_t *area, size_t area_bytes);

/* Does the trial by a reader. Tape, table and area each end right before a page that nobody may touch:
 * a read or a write past an end stops the program. */
void try_by(reader *read, const struct trial *trial, struct outcome *outcome);

bool same_outcome(const struct trial *trial, const struct outcome *x, const struct outcome *y);

/* The answer and the area as a line of text. */
void write_outcome(FILE *to, const struct trial *trial, const struct outcome *outcome);

#endif
