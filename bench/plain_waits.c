/*
 * The plain monitor's reports of who is stuck behind whom: one pass with marks for a chain, two for
 * the rings. Assumes nothing of what is lent: a report is made only after plain_sound.
 */
#include <string.h>

#include "plain.h"

/* Whom p waits for, 0 if it doesn't wait for an answer. */
static inline unsigned holder(const struct table *t, unsigned p)
{
    return t->process[p].state == MONITOR_STATE_WAITS_ANSWER ? t->buffer[t->process[p].awaited].receiver : 0;
}

void monitor_stuck(const uint16_t *table, size_t table_words, uint16_t *room, size_t room_words,
                   uint16_t process, struct monitor_stuck_report *report)
{
    *report = (struct monitor_stuck_report){.number = MONITOR_TABLE_NOT_SOUND};
    if (!plain_sound(table, table_words)) return;
    const struct table t = table_of((uint16_t *)table);
    report->number = MONITOR_NO_SUCH_PROCESS;
    if (process - 1u >= t.header->processes) return;
    report->number = MONITOR_WRONG_STATE;
    if (t.process[process].state != MONITOR_STATE_WAITS_ANSWER) return;
    uint16_t listed[MONITOR_PROCESSES_MOST];
    uint64_t met = 0;
    unsigned count = 0, p = process;
    for (; p != 0 && (met >> p & 1) == 0; p = holder(&t, p)) {
        met |= (uint64_t)1 << p;
        listed[count++] = (uint16_t)p;
    }
    report->number = MONITOR_ROOM_TOO_SHORT;
    if (room_words < count) return;
    memcpy(room, listed, count * sizeof *room);
    *report = (struct monitor_stuck_report){.count = (uint16_t)count, .ring = p != 0};
}

/* Which processes wait for themselves, a bit each: those met again on a way that began there. */
static uint64_t in_rings(const struct table *t)
{
    uint64_t met = 0, in = 0;
    for (unsigned a = 1; a <= t->header->processes; a++) {
        uint64_t before = met;
        unsigned p = a;
        for (; p != 0 && (met >> p & 1) == 0; p = holder(t, p)) met |= (uint64_t)1 << p;
        if (p == 0 || (before >> p & 1) != 0) continue;
        for (; (in >> p & 1) == 0; p = holder(t, p)) in |= (uint64_t)1 << p;
    }
    return in;
}

void monitor_rings(const uint16_t *table, size_t table_words, uint16_t *room, size_t room_words,
                   struct monitor_rings_report *report)
{
    *report = (struct monitor_rings_report){.number = MONITOR_TABLE_NOT_SOUND};
    if (!plain_sound(table, table_words)) return;
    const struct table t = table_of((uint16_t *)table);
    uint16_t written[MONITOR_RINGS_WORDS_MOST];
    uint64_t in = in_rings(&t);
    unsigned rings = 0, words = 0;
    for (unsigned a = 1; a <= t.header->processes; a++) {
        if ((in >> a & 1) == 0) continue;
        for (unsigned p = a; (in >> p & 1) != 0; p = holder(&t, p)) {
            in &= ~((uint64_t)1 << p);
            written[words++] = (uint16_t)p;
        }
        written[words++] = 0;
        rings++;
    }
    report->number = MONITOR_ROOM_TOO_SHORT;
    if (room_words < words) return;
    memcpy(room, written, words * sizeof *room);
    *report = (struct monitor_rings_report){.rings = (uint16_t)rings, .words = (uint16_t)words};
}
