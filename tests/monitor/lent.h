/*
 * Runs of words to lend: each ends right before a page that nobody may touch, and begins right
 * after a margin that is looked at afterwards, so that a read or write past the end stops the
 * program and a write before the start is seen.
 */
#ifndef LENT_H
#define LENT_H

#include <stdbool.h>
#include <stddef.h>
#include <stdint.h>

struct lent {
    uint16_t *fence; /* first word that may not be touched */
    uint16_t *words; /* the run lent last */
};

/* Room for runs of up to so many words. Ends the program if there is no memory. */
struct lent lent_area(size_t most);

/* A run of so many words with the contents given; the run lent before is gone. */
uint16_t *lend(struct lent *area, const uint16_t *contents, size_t words);

/* Whether the margin before the run is as it was. */
bool margin_kept(const struct lent *area);

#endif
