/*
 * beside [--calls N] [--seed S]: keeps the archive's delay queue beside the archive's monitor, on tables and
 * calls drawn at random. After each call the queue is fed what the call did: a wait, who was woken, stopped
 * or cleaned, a tick. Then every delay left must be the table's delay word, and a tick's list those that the
 * monitor woke. Exits 1 at the first difference, and 1 if something never came up.
 */
#include <stdio.h>
#include <stdlib.h>
#include <string.h>

#include "../monitor/draw.h"
#include "../monitor/make.h"
#include "../monitor/second.h"
#include "elvomike/delays.h"

enum { STRETCH_MOST = 150 };

static uint16_t queue[DELAYS_WORDS(DELAYS_PROCESSES_MOST)], listed[DELAYS_PROCESSES_MOST];
static size_t words, list_length;

/* What came up: accepted calls by number, ticks that woke several, owners that a clean woke from a wait with
 * a delay. */
static unsigned long accepted[CALL_NUMBERS], several, woken_by_clean;

static _Noreturn void differ(unsigned long call, unsigned number, const char *what)
{
    printf("DIFFERENCE at call %lu, a call %02X: %s\n", call, number, what);
    exit(1);
}

static bool waits(const uint16_t *t, unsigned p)
{
    return PROCESS(t, p, PROCESS_STATE) == MONITOR_STATE_WAITS_EVENT ||
           PROCESS(t, p, PROCESS_STATE) == MONITOR_STATE_WAITS_INTERRUPT;
}

static bool woke(const uint16_t *before, const uint16_t *after, unsigned p)
{
    return PROCESS(before, p, PROCESS_STATE) != MONITOR_STATE_RUNNING &&
           PROCESS(after, p, PROCESS_STATE) == MONITOR_STATE_RUNNING;
}

/* Feeds the queue what an accepted call did. */
static void feed(const uint16_t *before, const uint16_t *after, const struct monitor_registers *r)
{
    const unsigned caller = before[HEADER_FIRST];
    list_length = 0;
    if (r->call == MONITOR_TICK) {
        list_length = delays_tick(queue, words, listed, DELAYS_PROCESSES_MOST).count;
        return;
    }
    if (r->call == MONITOR_WAIT_EVENT && waits(after, caller)) delays_wait(queue, words, (uint16_t)caller, r->a);
    if (r->call == MONITOR_WAIT_INTERRUPT && waits(after, caller)) delays_wait(queue, words, (uint16_t)caller, r->b);
    if (r->call == MONITOR_STOP || r->call == MONITOR_CLEAN) delays_leave(queue, words, r->a);
    for (unsigned p = 1; p <= before[HEADER_P]; p++) {
        if (!woke(before, after, p)) continue;
        woken_by_clean += r->call == MONITOR_CLEAN && PROCESS(before, p, PROCESS_DELAY) > 0;
        delays_leave(queue, words, (uint16_t)p);
    }
}

/* Whether the delays left are the table's, and the list those that a tick woke. */
static bool agree(const uint16_t *before, const uint16_t *after, bool tick)
{
    size_t at = 0;
    for (unsigned p = 1; p <= after[HEADER_P]; p++) {
        if (delays_left(queue, words, (uint16_t)p).time != PROCESS(after, p, PROCESS_DELAY)) return false;
        if (!tick || !woke(before, after, p)) continue;
        if (at == list_length || listed[at++] != p) return false;
    }
    return at == list_length && delays_shown(queue, words);
}

/* A table laid out or in any sound state, and a queue with its delays. */
static void begin(struct run *table)
{
    make_table(table);
    if (chance(50)) furnish(table->word);
    words = DELAYS_WORDS(table->word[HEADER_P]);
    delays_make(queue, words, table->word[HEADER_P]);
    for (unsigned p = 1; p <= table->word[HEADER_P]; p++)
        delays_wait(queue, words, (uint16_t)p, PROCESS(table->word, p, PROCESS_DELAY));
}

/* So many calls on one table. */
static void stretch(unsigned long from, unsigned long calls)
{
    static struct run table, room;
    static uint16_t before[TABLE_MOST];
    struct monitor_registers registers = {0};
    const struct mood mood = make_mood();
    begin(&table);
    for (unsigned long i = 0; i < calls; i++) {
        make_call(table.word, &mood, &registers, &room);
        memcpy(before, table.word, sizeof before);
        monitor_trap(table.word, table.words, room.word, room.words, &registers);
        list_length = 0;
        if (registers.number == MONITOR_DONE) {
            accepted[registers.call]++;
            feed(before, table.word, &registers);
        }
        several += list_length > 1;
        if (!agree(before, table.word, registers.call == MONITOR_TICK))
            differ(from + i, registers.call, "a delay left, or whom the tick woke");
    }
}

static unsigned long number_of(const char *text)
{
    char *end;
    unsigned long number = strtoul(text, &end, 10);
    if (*text != '\0' && *end == '\0') return number;
    fprintf(stderr, "beside: '%s' is no number\n", text);
    exit(2);
}

int main(int arguments, char **argument)
{
    unsigned long calls = 100000, seed = 1, ever = 1;
    for (int i = 1; i + 1 < arguments; i += 2) {
        if (strcmp(argument[i], "--calls") == 0) calls = number_of(argument[i + 1]);
        if (strcmp(argument[i], "--seed") == 0) seed = number_of(argument[i + 1]);
    }
    draw_from(seed);
    for (unsigned long done = 0, length; done < calls; done += length) {
        length = 1 + below(STRETCH_MOST);
        stretch(done, length);
    }
    printf("%lu calls, and the queue agrees after each: %lu ticks, %lu of them woke several; "
           "%lu waits woken by a clean.\n",
           calls, accepted[MONITOR_TICK], several, woken_by_clean);
    for (unsigned number = MONITOR_SEND; number < CALL_NUMBERS; number++) ever = ever && accepted[number];
    if (ever && several && woken_by_clean) return 0;
    puts("Something never came up, so it was not compared.");
    return 1;
}
