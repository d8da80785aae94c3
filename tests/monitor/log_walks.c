/*
 * log_walks: the walk of each call of a log, as the archive's monitor_trap_walked tells it. Reads lines of seven hexadecimal
 * numbers, call, a, b and four words, layout entries first (call 0); writes four decimal ones for each call: entries, passed,
 * most, moved. Assumes that the lines are calls, as the replay takes them (docs/MONITOR.md, 15).
 */
#include <stdio.h>

#include "elvomike/monitor.h"

static uint16_t table[MONITOR_TABLE_WORDS_MOST], room[MONITOR_LISTING_WORDS * MONITOR_BUFFERS_MOST];
static uint16_t list[MONITOR_ENTRY_WORDS * MONITOR_PROCESSES_MOST];

/* Reads one line into the registers; gives whether there was one. */
static int next_line(struct monitor_registers *r)
{
    return scanf("%hx %hx %hx %hx %hx %hx %hx", &r->call, &r->a, &r->b, &r->w[0], &r->w[1], &r->w[2],
                 &r->w[3]) == 7;
}

int main(void)
{
    struct monitor_registers r = {0};
    struct monitor_walk walk;
    size_t entries = 0;
    int more = next_line(&r);
    for (; more && r.call == 0 && entries < MONITOR_PROCESSES_MOST; more = next_line(&r), entries++) {
        const uint16_t entry[] = {r.a, r.b, r.w[0], r.w[1], r.w[2]};
        for (size_t i = 0; i < MONITOR_ENTRY_WORDS; i++) list[MONITOR_ENTRY_WORDS * entries + i] = entry[i];
    }
    if (monitor_layout(list, MONITOR_ENTRY_WORDS * entries, MONITOR_EDITION_FIRST, list, 0, table,
                       MONITOR_TABLE_WORDS_MOST) != MONITOR_DONE)
        return 1;
    for (; more; more = next_line(&r)) {
        monitor_trap_walked(table, MONITOR_TABLE_WORDS_MOST, room, sizeof room / sizeof room[0], &r, &walk);
        printf("%u %u %u %u\n", walk.entries, walk.passed, walk.most, walk.moved);
    }
    return 0;
}
