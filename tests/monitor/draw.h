/* One stream of random numbers for the whole run, the same for the same seed on every machine. */
#ifndef DRAW_H
#define DRAW_H

#include <stdbool.h>
#include <stdint.h>

void draw_from(uint64_t seed);

/* A number from 0 to n - 1; n is at least 1. */
unsigned below(unsigned n);

/* True so many times in a hundred. */
bool chance(unsigned percent);

/* A word: often a small number or one at an edge, otherwise any. */
uint16_t some_word(void);

/* A delay: often 0 or about to end, otherwise any. */
uint16_t some_delay(void);

/* An age: most often one of the first or the last two, otherwise any. */
uint16_t some_age(void);

/* The numbers 1 to n in random order. */
void shuffled(uint16_t *number, unsigned n);

#endif
