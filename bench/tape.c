/*
 * Cases of the tape reader's input operation to count instructions of. With no arguments prints their
 * names; with a name's place and a number of characters does one operation on so many. The work besides
 * is the same for every number, so that the difference of two runs is the characters' own. Assumes
 * include/elvomike/tape.h, whichever implementation is linked.
 */
#include "elvomike/tape.h"

#include <stdio.h>
#include <stdlib.h>

enum { TAPE_MOST = 8192, LETTERS = 64, SHIFT_EVERY = 10, SHIFT_UP = 14, SHIFT_DOWN = 15 };

struct bench_case {
    const char *name;
    unsigned mode, table_words, shifts;
};

static const struct bench_case cases[] = {
    {"mode 1", TAPE_BINARY, 0, 0},
    {"mode 9 without a table", TAPE_EVEN, 0, 0},
    {"mode 9 with a table", TAPE_EVEN, 256, 0},
    {"mode 9 with a table, each tenth a shift", TAPE_EVEN, 256, 1},
};
enum { CASES = sizeof cases / sizeof cases[0] };

static uint8_t tape[TAPE_MOST], area[TAPE_MOST];
static uint16_t table[256];

/* Two pages of 128 characters: each delivers itself, the second page with another top. Character 14
 * moves from the first to the second, 15 back; on the page it leads to either is skipped. */
static void make_table(void)
{
    for (unsigned c = 0; c < 128; c++) {
        table[c] = TAPE_ENTRY(TAPE_NORMAL, c);
        table[128 + c] = TAPE_ENTRY(TAPE_NORMAL, 128 + c);
    }
    table[SHIFT_UP] = TAPE_ENTRY(TAPE_UP, 128);
    table[128 + SHIFT_UP] = table[SHIFT_DOWN] = TAPE_ENTRY(TAPE_SKIP, 0);
    table[128 + SHIFT_DOWN] = TAPE_ENTRY(TAPE_DOWN, 128);
}

/* Letters with even parity, and among them shifts, up and down in turn. */
static void make_tape(unsigned shifts)
{
    for (unsigned i = 0; i < TAPE_MOST; i++) {
        unsigned c = 32 + i * 7 % LETTERS;
        if (shifts && i % SHIFT_EVERY == 5) c = i / SHIFT_EVERY % 2 ? SHIFT_DOWN : SHIFT_UP;
        tape[i] = (uint8_t)(c | (unsigned)__builtin_parity(c) << 7);
    }
}

int main(int arguments, char **argument)
{
    if (arguments < 3) {
        for (unsigned i = 0; i < CASES; i++) puts(cases[i].name);
        return 0;
    }
    const unsigned place = (unsigned)atoi(argument[1]) - 1;
    const size_t characters = (size_t)atoi(argument[2]);
    if (place >= CASES || characters > TAPE_MOST) return 2;
    make_table();
    make_tape(cases[place].shifts);
    const struct tape_taken taken =
        tape_read((uint16_t)cases[place].mode, tape, characters, table, cases[place].table_words, 0,
                  area, TAPE_MOST);
    return taken.number == TAPE_DONE && taken.read == characters ? 0 : 1;
}
