/*
 * Trials done by the archive and by the second implementation. The archive gets every run on fenced
 * words, the registers too.
 */
#include "trial.h"

#include <string.h>

#include "lent.h"
#include "second.h"

_Static_assert(sizeof(struct monitor_registers) == 30, "the record is fifteen words without gaps");
_Static_assert(sizeof(struct monitor_walk) == 8, "the walk is four words without gaps");

static void copy_run(struct run *to, const uint16_t *from, size_t words)
{
    to->words = words;
    memcpy(to->word, from, words * sizeof *from);
}

static struct lent tables, rooms, lists, counter_lists, records, walks;

static void make_areas(void)
{
    if (tables.fence != NULL) return;
    tables = lent_area(TABLE_MOST);
    rooms = lent_area(TABLE_MOST);
    lists = lent_area(TABLE_MOST);
    counter_lists = lent_area(TABLE_MOST);
    records = lent_area(sizeof(struct monitor_registers) / 2);
    walks = lent_area(sizeof(struct monitor_walk) / 2);
}

void by_archive(const struct trial *trial, struct outcome *outcome)
{
    make_areas();
    uint16_t *table = lend(&tables, trial->table.word, trial->table.words);
    uint16_t *room = lend(&rooms, trial->room.word, trial->room.words);
    uint16_t *list = lend(&lists, trial->list.word, trial->list.words);
    uint16_t *counters = lend(&counter_lists, trial->counters.word, trial->counters.words);
    size_t record_words = sizeof trial->registers / sizeof(uint16_t);
    struct monitor_registers *registers =
        (void *)lend(&records, &trial->registers.call, record_words);
    static const struct monitor_walk nowhere;
    struct monitor_walk *walk = (void *)lend(&walks, &nowhere.entries, sizeof nowhere / 2);
    if (trial->layout)
        registers->number = monitor_layout(list, trial->list.words, trial->edition, counters,
                                           trial->counters.words, table, trial->table.words);
    else
        entry(table, trial->table.words, room, trial->room.words, registers, walk);
    outcome->registers = *registers;
    outcome->walk = *walk;
    copy_run(&outcome->table, table, trial->table.words);
    copy_run(&outcome->room, room, trial->room.words);
    outcome->outside =
        !margin_kept(&tables) || !margin_kept(&rooms) || !margin_kept(&lists) ||
        !margin_kept(&counter_lists) || !margin_kept(&records) || !margin_kept(&walks) ||
        memcmp(list, trial->list.word, trial->list.words * sizeof *list) != 0 ||
        memcmp(counters, trial->counters.word, trial->counters.words * sizeof *counters) != 0;
}

void by_second(const struct trial *trial, struct outcome *outcome)
{
    outcome->registers = trial->registers;
    outcome->table = trial->table;
    outcome->room = trial->room;
    outcome->outside = false;
    second_walk = (struct monitor_walk){0};
    if (trial->layout)
        outcome->registers.number =
            second_layout(trial->list.word, trial->list.words, trial->edition, trial->counters.word,
                          trial->counters.words, outcome->table.word, outcome->table.words);
    else
        second_trap(outcome->table.word, outcome->table.words, outcome->room.word,
                    outcome->room.words, &outcome->registers);
    outcome->walk = walk_told ? second_walk : (struct monitor_walk){0};
}

bool same_run(const struct run *x, const struct run *y)
{
    return x->words == y->words && memcmp(x->word, y->word, x->words * sizeof x->word[0]) == 0;
}

bool same_outcome(const struct outcome *x, const struct outcome *y)
{
    return memcmp(&x->registers, &y->registers, sizeof x->registers) == 0 &&
           memcmp(&x->walk, &y->walk, sizeof x->walk) == 0 && same_run(&x->table, &y->table) &&
           same_run(&x->room, &y->room) &&
           x->outside == y->outside;
}

static void write_words(FILE *to, const uint16_t *word, size_t words)
{
    for (size_t i = 0; i < words; i++) fprintf(to, "%04X", (unsigned)word[i]);
}

static void write_run(FILE *to, const struct run *run)
{
    putc(' ', to);
    if (run->words == 0) putc('-', to);
    write_words(to, run->word, run->words);
}

/* The answer in the replay's 30 digits. */
static void write_answer(FILE *to, const struct monitor_registers *r)
{
    fprintf(to, " %02X%04X%04X%04X", (unsigned)r->number, (unsigned)r->kind, (unsigned)r->buffer,
            (unsigned)r->current);
    write_words(to, r->r, 4);
}

static void write_after(FILE *to, const struct run *before, const struct run *after)
{
    if (same_run(before, after))
        fputs(" =", to);
    else
        write_run(to, after);
}

void write_line(FILE *to, const struct trial *trial, const struct outcome *outcome)
{
    const struct monitor_registers *r = &trial->registers;
    if (trial->layout) {
        write_words(to, trial->list.word, trial->list.words);
        if (trial->list.words == 0) putc('-', to);
    } else {
        fprintf(to, "%04X %04X %04X ", (unsigned)r->call, (unsigned)r->a, (unsigned)r->b);
        write_words(to, r->w, 4);
    }
    write_run(to, &trial->table);
    if (!trial->layout) write_run(to, &trial->room);
    if (outcome != NULL) {
        write_answer(to, &outcome->registers);
        write_after(to, &trial->table, &outcome->table);
        if (trial->layout) {
            fprintf(to, " %04X", (unsigned)trial->edition);
            write_run(to, &trial->counters);
        } else {
            write_after(to, &trial->room, &outcome->room);
            fprintf(to, " %d", second_sound(trial->table.word, trial->table.words));
        }
    }
    putc('\n', to);
}
