/*
 * against [--screens N] [--seed S]: runs the archive's monitor_screen beside the second implementation on
 * tables drawn at random, sound and not, and lists of any length. The queue's length is counted along its
 * links, the sent ones in the listing of call 0B. Exits 1 at the first difference, and 1 if a refusal, a
 * queue or an orphan never came up.
 */
#include <stdio.h>
#include <stdlib.h>
#include <string.h>

#include "../monitor/draw.h"
#include "../monitor/lent.h"
#include "../monitor/make.h"
#include "../monitor/second.h"
#include "elvomike/screen.h"

enum { RECORDS_MOST = 64, RECORD_WORDS = 4 };

/* How often each number came up, and what the filled screens said. */
static unsigned by_number[MONITOR_ROOM_TOO_SHORT + 1], queued, sent, orphans;

/* How many rows of a listing for process p have it as their owner. */
static uint16_t listed_sent(const struct run *table, uint16_t p)
{
    static struct run copy;
    uint16_t room[MONITOR_BUFFERS_MOST * MONITOR_LISTING_WORDS], count = 0;
    struct monitor_registers r = {.call = MONITOR_LIST, .a = p};
    copy = *table;
    second_trap(copy.word, copy.words, room, sizeof room / sizeof *room, &r);
    if (r.number != MONITOR_DONE) abort();
    for (unsigned k = 0; k < r.kind; k++) {
        const uint16_t *row = room + MONITOR_LISTING_WORDS * k;
        if (row[1] != p) continue;
        count++;
        orphans += row[3] == MONITOR_ORPHANED;
    }
    return count;
}

/* What a screen of the table should say of process p. */
static struct monitor_summary expected_of(const struct run *table, uint16_t p)
{
    const uint16_t *t = table->word;
    struct monitor_summary s = {.number = p, .state = PROCESS(t, p, PROCESS_STATE)};
    for (unsigned b = PROCESS(t, p, PROCESS_FIRST); b != 0; b = BUFFER(t, b, BUFFER_NEXT)) s.queue++;
    s.sent = listed_sent(table, p);
    queued += s.queue;
    sent += s.sent;
    return s;
}

/* The number it should give; fills the list if that is 0. */
static uint16_t expect(const struct run *table, struct monitor_summary *list, size_t records)
{
    if (!second_sound(table->word, table->words)) return MONITOR_TABLE_NOT_SOUND;
    if (records < table->word[HEADER_P]) return MONITOR_ROOM_TOO_SHORT;
    for (uint16_t p = 1; p <= table->word[HEADER_P]; p++) list[p - 1] = expected_of(table, p);
    return MONITOR_DONE;
}

static void draw_table(struct run *table)
{
    make_table(table);
    if (table->word[HEADER_P] != 0 && chance(90)) furnish(table->word);
    if (chance(20)) spoil(table);
}

/* Mostly about as many records as there are processes. */
static size_t draw_records(const struct run *table)
{
    if (table->words == 0 || chance(40)) return below(RECORDS_MOST / 2 + 4);
    return (table->word[HEADER_P] + below(3)) % RECORDS_MOST;
}

/* One table and list, by both; whether they agree. */
static bool agrees(struct lent *tables, struct lent *lists)
{
    static struct run table;
    struct monitor_summary before[RECORDS_MOST], after[RECORDS_MOST];
    draw_table(&table);
    size_t records = draw_records(&table);
    for (size_t i = 0; i < records; i++)
        before[i] = (struct monitor_summary){some_word(), some_word(), some_word(), some_word()};
    memcpy(after, before, records * sizeof *after);
    uint16_t number = expect(&table, after, records);
    uint16_t *t = lend(tables, table.word, table.words);
    uint16_t *l = lend(lists, (uint16_t *)(void *)before, records * RECORD_WORDS);
    by_number[number]++;
    return monitor_screen(t, table.words, (struct monitor_summary *)(void *)l, records) == number &&
           memcmp(l, after, records * sizeof *after) == 0 && memcmp(t, table.word, table.words * sizeof *t) == 0 &&
           margin_kept(tables) && margin_kept(lists);
}

int main(int arguments, char **argument)
{
    struct lent tables = lent_area(TABLE_MOST), lists = lent_area(RECORDS_MOST * RECORD_WORDS);
    unsigned screens = 50000, seed = 1;
    for (int i = 1; i + 1 < arguments; i += 2) {
        if (strcmp(argument[i], "--screens") == 0) screens = (unsigned)atoi(argument[i + 1]);
        if (strcmp(argument[i], "--seed") == 0) seed = (unsigned)atoi(argument[i + 1]);
    }
    draw_from(seed);
    for (unsigned i = 1; i <= screens; i++)
        if (!agrees(&tables, &lists)) {
            printf("DIFFERENCE in screen %u of seed %u\n", i, seed);
            return 1;
        }
    printf("%u screens agree: %u filled, %u refused with 1, %u with 10; %u queued, %u sent, %u of them orphaned.\n",
           screens, by_number[MONITOR_DONE], by_number[MONITOR_TABLE_NOT_SOUND], by_number[MONITOR_ROOM_TOO_SHORT],
           queued, sent, orphans);
    return by_number[MONITOR_DONE] == 0 || by_number[MONITOR_TABLE_NOT_SOUND] == 0 ||
           by_number[MONITOR_ROOM_TOO_SHORT] == 0 || queued == 0 || orphans == 0;
}
