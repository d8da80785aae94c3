/*
 * against [--tapes N] [--seed S]: runs the archive's tape_read beside the plain C version on tapes, tables
 * and areas drawn at random, and compares answer and area. The same seed gives the same tapes on every
 * machine. Exits 1 at the first difference, and 1 if a refusal or an ending never came up.
 */
#include <stdlib.h>
#include <string.h>

#include "../monitor/draw.h"
#include "trial.h"

/* The plain version, under a name of its own. */
extern reader plain_read;

enum { LONGEST = 40, PAGE = 128, PAGES_MOST = 4 };

static uint16_t some_entry(unsigned words)
{
    static const unsigned shift_by[] = {0, 1, 2, PAGE, 255};
    unsigned value = below(256), draw = below(100);
    if (draw < 70) return TAPE_ENTRY(TAPE_NORMAL, value);
    if (draw < 78) return TAPE_ENTRY(TAPE_SKIP, value);
    if (draw < 93) {
        unsigned by = words > PAGE ? shift_by[below(5)] : 1 + below(3);
        return TAPE_ENTRY(draw % 2 ? TAPE_DOWN : TAPE_UP, by);
    }
    if (draw < 95) return TAPE_ENTRY(TAPE_END, value);
    if (draw < 99) return TAPE_ENTRY(TAPE_PARITY + below(120), value);
    return (uint16_t)below(0x10000);
}

/* Sometimes none, sometimes more words than count, mostly some pages. */
static void draw_table(struct trial *trial)
{
    if (chance(15))
        trial->table_words = 0;
    else if (chance(1))
        trial->table_words = TAPE_TABLE_WORDS_MOST - 2 + below(5);
    else
        trial->table_words = chance(20) ? 1 + below(PAGES_MOST * PAGE) : PAGE * (1 + below(PAGES_MOST));
    for (size_t i = 0; i < trial->table_words; i++)
        trial->table[i] = some_entry((unsigned)trial->table_words);
}

/* Mostly the start of a page, sometimes near the table's ends or those of 32 bits. */
static int32_t some_base(size_t words)
{
    static const int32_t edge[] = {INT32_MIN, INT32_MIN + 1, INT32_MAX - 127, INT32_MAX};
    if (chance(85)) return (int32_t)(words < PAGE ? 0 : below((unsigned)(words / PAGE)) * PAGE);
    if (chance(20)) return edge[below(4)];
    if (chance(50)) return (int32_t)below(PAGE) - PAGE;
    return (int32_t)words - (int32_t)below(2 * PAGE);
}

static void draw_trial(struct trial *trial)
{
    static const uint16_t mode[] = {TAPE_BINARY, TAPE_ODD, TAPE_EVEN, TAPE_ODD, TAPE_EVEN};
    trial->mode = chance(98) ? mode[below(5)] : some_word();
    trial->tape_bytes = below(LONGEST);
    for (size_t i = 0; i < trial->tape_bytes; i++) {
        unsigned c = below(PAGE), even = (unsigned)__builtin_parity(c);
        unsigned top = trial->mode == TAPE_ODD ? !even : even;
        trial->tape[i] = (uint8_t)(chance(90) ? c | top << 7 : below(256));
    }
    trial->area_bytes = chance(70) ? LONGEST : below(LONGEST);
    for (size_t i = 0; i < trial->area_bytes; i++) trial->area[i] = (uint8_t)below(256);
    draw_table(trial);
    trial->base = some_base(trial->table_words);
}

/* What came up: operations done, refusals by number, and how the done ones ended. */
static unsigned long done, refused[19], full, used_up, ended, marked, moved;

static void count(const struct trial *trial, const struct tape_taken *taken)
{
    if (taken->number != TAPE_DONE) {
        refused[taken->number < 19 ? taken->number : 0]++;
        return;
    }
    done++;
    full += taken->stored == trial->area_bytes;
    used_up += taken->read == trial->tape_bytes;
    ended += taken->stored < trial->area_bytes && taken->read < trial->tape_bytes;
    marked += taken->status != 0;
    moved += taken->base != trial->base;
}

static unsigned long number_of(const char *text)
{
    char *end;
    unsigned long number = strtoul(text, &end, 10);
    if (*text != '\0' && *end == '\0') return number;
    fprintf(stderr, "against: '%s' is no number\n", text);
    exit(2);
}

int main(int arguments, char **argument)
{
    static struct trial trial;
    struct outcome archive, plain;
    unsigned long tapes = 100000, seed = 1;
    for (int i = 1; i + 1 < arguments; i += 2) {
        if (strcmp(argument[i], "--tapes") == 0) tapes = number_of(argument[i + 1]);
        if (strcmp(argument[i], "--seed") == 0) seed = number_of(argument[i + 1]);
    }
    draw_from(seed);
    for (unsigned long i = 0; i < tapes; i++) {
        draw_trial(&trial);
        try_by(plain_read, &trial, &plain);
        try_by(tape_read, &trial, &archive);
        count(&trial, &plain.taken);
        if (same_outcome(&trial, &plain, &archive)) continue;
        printf("DIFFERENCE at tape %lu of seed %lu, mode %u, base %ld, %zu words\nplain C: ", i + 1, seed,
               (unsigned)trial.mode, (long)trial.base, trial.table_words);
        write_outcome(stdout, &trial, &plain);
        printf("archive: ");
        write_outcome(stdout, &trial, &archive);
        return 1;
    }
    printf("%lu tapes alike: %lu done (%lu ended by a block's end, %lu by a full area, %lu with status 0020, "
           "%lu with a moved base), refused with 15 %lu, 16 %lu, 17 %lu, 18 %lu.\n",
           tapes, done, ended, full, marked, moved, refused[15], refused[16], refused[17], refused[18]);
    const unsigned long never[] = {ended, full, used_up, marked, moved, refused[15], refused[16], refused[17],
                                   refused[18]};
    for (unsigned i = 0; i < sizeof never / sizeof never[0]; i++) {
        if (never[i] != 0) continue;
        puts("Something never came up, so it was not compared.");
        return 1;
    }
    return 0;
}
