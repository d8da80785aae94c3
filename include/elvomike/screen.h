/*
 * The operator's screen, for C and C++ programs on x86-64 (System V): what each process of a table does,
 * in one short record.
 *
 * Link with libelvomike-screen.a, beside libelvomike-trap.a or without it. The table is the one of monitor.h, and it is
 * only read. Nothing lent is kept.
 *
 *     struct monitor_summary list[MONITOR_PROCESSES_MOST];
 *     if (monitor_screen(table, words, list, MONITOR_PROCESSES_MOST) == MONITOR_DONE)
 *         for (unsigned p = 0; p < table[0]; p++) show(&list[p]);
 *
 * The table is counted in words, the list in records. No pointer may be NULL, not even one to none. The
 * list must not overlap the table.
 */
#ifndef SCREEN_H
#define SCREEN_H

#include "monitor.h"

#ifdef __cplusplus
extern "C" {
#endif

/* What a process does. */
struct monitor_summary {
    uint16_t number; /* of the process, from 1 */
    uint16_t state;  /* an enum monitor_state */
    uint16_t queue;  /* messages and answers in its event queue */
    uint16_t sent;   /* conversations it has open as sender: its rows as owner in MONITOR_LIST */
};

/*
 * Fills in the record of each process, that of process p at list[p - 1]; the records behind them stay as
 * they are. Gives MONITOR_DONE; MONITOR_TABLE_NOT_SOUND if the lent words are no sound table, else
 * MONITOR_ROOM_TOO_SHORT if there are fewer records than processes. Refused, it fills in nothing.
 */
uint16_t monitor_screen(const uint16_t *table, size_t table_words, struct monitor_summary *list,
                        size_t records);

#ifdef __cplusplus
}
#endif

#endif
