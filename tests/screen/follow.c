/*
 * follow: reads calls, a line each, seven hexadecimal numbers (call, a, b, four words); those of call 0
 * come first and are a layout's entries. Does them on one table by the second implementation and, after
 * each, writes the screen of the archive: a line of 'number state queue sent' for each process, and an
 * empty one. Assumes a layout that isn't refused.
 */
#include <stdbool.h>
#include <stdio.h>

#include "../monitor/second.h"
#include "elvomike/screen.h"

static uint16_t table[MONITOR_TABLE_WORDS_MOST];

/* One line read: whether there was one. */
static bool read_call(struct monitor_registers *r)
{
    unsigned n[7];
    if (scanf("%x %x %x %x %x %x %x", n, n + 1, n + 2, n + 3, n + 4, n + 5, n + 6) != 7) return false;
    *r = (struct monitor_registers){.call = (uint16_t)n[0], .a = (uint16_t)n[1], .b = (uint16_t)n[2]};
    for (unsigned i = 0; i < 4; i++) r->w[i] = (uint16_t)n[3 + i];
    return true;
}

static bool write_screen(void)
{
    struct monitor_summary list[MONITOR_PROCESSES_MOST];
    if (monitor_screen(table, MONITOR_TABLE_WORDS_MOST, list, MONITOR_PROCESSES_MOST) != MONITOR_DONE) return false;
    for (unsigned p = 0; p < table[HEADER_P]; p++)
        printf("%u %u %u %u\n", list[p].number, list[p].state, list[p].queue, list[p].sent);
    putchar('\n');
    return true;
}

int main(void)
{
    uint16_t list[MONITOR_PROCESSES_MOST * MONITOR_ENTRY_WORDS];
    uint16_t room[MONITOR_BUFFERS_MOST * MONITOR_LISTING_WORDS];
    size_t words = 0;
    bool laid = false;
    for (struct monitor_registers r; read_call(&r);) {
        if (r.call == 0) {
            const uint16_t entry[] = {r.a, r.b, r.w[0], r.w[1], r.w[2]};
            for (unsigned i = 0; i < MONITOR_ENTRY_WORDS; i++) list[words++] = entry[i];
            continue;
        }
        if (!laid && second_layout(list, words, MONITOR_EDITION_FIRST, list, 0, table, MONITOR_TABLE_WORDS_MOST) != MONITOR_DONE)
            return 1;
        laid = true;
        second_trap(table, MONITOR_TABLE_WORDS_MOST, room, sizeof room / sizeof *room, &r);
        if (!write_screen()) return 1;
    }
    return 0;
}
