/* The operator's screen in plain C, to measure the proved one by. Assumes the plain check of the table. */
#include "plain.h"
#include "elvomike/screen.h"

uint16_t monitor_screen(const uint16_t *table, size_t table_words, struct monitor_summary *list,
                        size_t records)
{
    if (!plain_sound(table, table_words)) return MONITOR_TABLE_NOT_SOUND;
    const struct table t = table_of((uint16_t *)table);
    if (records < t.header->processes) return MONITOR_ROOM_TOO_SHORT;
    for (unsigned p = 1; p <= t.header->processes; p++) {
        const struct process *process = &t.process[p];
        unsigned queue = 0, sent = 0;
        for (unsigned b = process->first; b != 0; b = t.buffer[b].next) queue++;
        for (unsigned i = 0; i < process->owns; i++) sent += t.buffer[process->own + i].standing != 0;
        list[p - 1] = (struct monitor_summary){(uint16_t)p, process->state, (uint16_t)queue, (uint16_t)sent};
    }
    return MONITOR_DONE;
}
