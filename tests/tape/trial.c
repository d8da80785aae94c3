/* Trials on fenced memory. Assumes a system with mmap. */
#include "trial.h"

#include <string.h>

#include "../monitor/lent.h"

enum { MARGIN_BYTES = 16, MARGIN_BYTE = 0xA5 };

/* So many bytes right before a fence, with a margin before them. */
static uint8_t *lend_bytes(const struct lent *lent, const uint8_t *contents, size_t bytes)
{
    uint8_t *run = (uint8_t *)lent->fence - bytes;
    memcpy(run, contents, bytes);
    memset(run - MARGIN_BYTES, MARGIN_BYTE, MARGIN_BYTES);
    return run;
}

static bool margin_written(const uint8_t *run)
{
    for (unsigned i = 1; i <= MARGIN_BYTES; i++)
        if (run[-(ptrdiff_t)i] != MARGIN_BYTE) return true;
    return false;
}

void try_by(reader *read, const struct trial *trial, struct outcome *outcome)
{
    static struct lent tape_lent, table_lent, area_lent;
    if (tape_lent.fence == NULL) {
        tape_lent = lent_area(TAPE_MOST);
        table_lent = lent_area(TABLE_MOST);
        area_lent = lent_area(AREA_MOST);
    }
    const uint8_t *tape = lend_bytes(&tape_lent, trial->tape, trial->tape_bytes);
    const uint16_t *table = lend(&table_lent, trial->table, trial->table_words);
    uint8_t *area = lend_bytes(&area_lent, trial->area, trial->area_bytes);
    outcome->taken = read(trial->mode, tape, trial->tape_bytes, table, trial->table_words,
                          trial->base, area, trial->area_bytes);
    memcpy(outcome->area, area, trial->area_bytes);
    outcome->outside = margin_written(area);
}

bool same_outcome(const struct trial *trial, const struct outcome *x, const struct outcome *y)
{
    return x->taken.number == y->taken.number && x->taken.stored == y->taken.stored &&
           x->taken.read == y->taken.read && x->taken.base == y->taken.base &&
           x->taken.status == y->taken.status && x->outside == y->outside &&
           memcmp(x->area, y->area, trial->area_bytes) == 0;
}

void write_outcome(FILE *to, const struct trial *trial, const struct outcome *outcome)
{
    const struct tape_taken *t = &outcome->taken;
    fprintf(to, "number %u, stored %zu, read %zu, base %ld, status %04X, area", (unsigned)t->number,
            t->stored, t->read, (long)t->base, (unsigned)t->status);
    for (size_t i = 0; i < trial->area_bytes; i++) fprintf(to, " %u", (unsigned)outcome->area[i]);
    fputs(outcome->outside ? ", and bytes before the area were written\n" : "\n", to);
}
