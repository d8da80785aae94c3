/*
 * docs/MONITOR.md, 17.1 read a second time. What it says of reaching and of waiting for oneself is looked
 * at link by link from each process anew. Assumes nothing of the words lent.
 */
#include "second_waits.h"

#include <string.h>

#include "second.h"

/* "from a waiting process to its buffer, and from that buffer to the process that has it as
 * receiver"; 0 if p isn't in state 3. */
static unsigned one_link(const uint16_t *t, unsigned p)
{
    if (PROCESS(t, p, PROCESS_STATE) != MONITOR_STATE_WAITS_ANSWER) return 0;
    return BUFFER(t, PROCESS(t, p, PROCESS_AWAITED), BUFFER_RECEIVER);
}

unsigned second_after_links(const uint16_t *t, unsigned p, unsigned links)
{
    while (links-- > 0 && p != 0) p = one_link(t, p);
    return p;
}

bool second_awaits_itself(const uint16_t *t, unsigned p)
{
    for (unsigned links = 1; links <= t[HEADER_P]; links++)
        if (second_after_links(t, p, links) == p) return true;
    return false;
}

/* "some process reached from the first waits, through such links, for itself" */
static bool reaches_ring(const uint16_t *t, unsigned p)
{
    for (unsigned links = 0; links <= t[HEADER_P]; links++) {
        unsigned q = second_after_links(t, p, links);
        if (q != 0 && second_awaits_itself(t, q)) return true;
    }
    return false;
}

static bool listed(const uint16_t *list, unsigned count, unsigned p)
{
    for (unsigned i = 0; i < count; i++)
        if (list[i] == p) return true;
    return false;
}

void second_stuck(const uint16_t *t, size_t table_words, uint16_t *room, size_t room_words,
                  uint16_t process, struct monitor_stuck_report *report)
{
    uint16_t list[MONITOR_PROCESSES_MOST];
    unsigned count = 0;
    *report = (struct monitor_stuck_report){0};
    if (!second_sound(t, table_words)) {
        report->number = 1;
    } else if (process < 1 || process > t[HEADER_P]) {
        report->number = 4;
    } else if (PROCESS(t, process, PROCESS_STATE) != MONITOR_STATE_WAITS_ANSWER) {
        report->number = 7;
    } else {
        for (unsigned p = process; p != 0 && !listed(list, count, p); p = one_link(t, p))
            list[count++] = (uint16_t)p;
        if (room_words < count) {
            report->number = 10;
            return;
        }
        memcpy(room, list, count * sizeof *room);
        report->count = (uint16_t)count;
        report->ring = reaches_ring(t, process);
    }
}

/* Whether p is in a ring, and nobody in it is lower. */
static bool lowest_of_ring(const uint16_t *t, unsigned p)
{
    if (!second_awaits_itself(t, p)) return false;
    for (unsigned links = 1; links <= t[HEADER_P]; links++)
        if (second_after_links(t, p, links) < p) return false;
    return true;
}

void second_rings(const uint16_t *t, size_t table_words, uint16_t *room, size_t room_words,
                  struct monitor_rings_report *report)
{
    uint16_t list[2 * MONITOR_PROCESSES_MOST];
    unsigned rings = 0, words = 0;
    *report = (struct monitor_rings_report){0};
    if (!second_sound(t, table_words)) {
        report->number = 1;
        return;
    }
    for (unsigned a = 1; a <= t[HEADER_P]; a++) {
        if (!lowest_of_ring(t, a)) continue;
        unsigned p = a;
        do list[words++] = (uint16_t)p;
        while ((p = one_link(t, p)) != a);
        list[words++] = 0;
        rings++;
    }
    if (room_words < words) {
        report->number = 10;
        return;
    }
    memcpy(room, list, words * sizeof *room);
    *report = (struct monitor_rings_report){.rings = (uint16_t)rings, .words = (uint16_t)words};
}
