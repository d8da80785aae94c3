/* The stream of random numbers (splitmix64), and what is drawn from it. Assumes nothing. */
#include "draw.h"

static uint64_t state;

void draw_from(uint64_t seed) { state = seed; }

static uint64_t draw(void)
{
    uint64_t z = state += 0x9E3779B97F4A7C15u;
    z = (z ^ (z >> 30)) * 0xBF58476D1CE4E5B9u;
    z = (z ^ (z >> 27)) * 0x94D049BB133111EBu;
    return z ^ (z >> 31);
}

unsigned below(unsigned n) { return (unsigned)((draw() >> 32) * n >> 32); }

bool chance(unsigned percent) { return below(100) < percent; }

uint16_t some_word(void)
{
    static const uint16_t edge[] = {0, 1, 31, 32, 33, 63, 64, 65, 127, 128, 129, 255, 256,
                                    0x7FFF, 0x8000, 0xFFFE, 0xFFFF};
    switch (below(3)) {
    case 0: return (uint16_t)below(10);
    case 1: return edge[below(sizeof edge / sizeof edge[0])];
    default: return (uint16_t)below(0x10000);
    }
}

uint16_t some_delay(void) { return chance(70) ? (uint16_t)below(4) : some_word(); }

uint16_t some_age(void)
{
    static const uint16_t edge[] = {0, 1, 0xFFFE, 0xFFFF};
    return chance(70) ? edge[below(4)] : some_word();
}

void shuffled(uint16_t *number, unsigned n)
{
    for (unsigned i = 0; i < n; i++) {
        unsigned j = below(i + 1);
        number[i] = number[j];
        number[j] = (uint16_t)(i + 1);
    }
}
