/*
 * A call on a table that is not looked over first, for C and C++ programs on x86-64 (System V).
 *
 * THIS ENTRY ASKS SOMETHING OF YOU, and it is the only one that does. The words that you lend must be a
 * sound table, which they are if one of these left them and nobody else has written a word of them since:
 *   - monitor_layout, where it gave MONITOR_DONE;
 *   - monitor_quick, or monitor_trap or monitor_trap_walked, on such words, done or refused alike;
 *   - monitor_sound, where it gave 1.
 * Then monitor_quick does what monitor_trap does, word for word and answer for answer, in a small part of
 * its instructions. Lend other words, and nothing is promised: it may give a wrong answer, not come back,
 * or read and write memory beside the table. If a program of yours, a device or another processor can
 * write the table, or if you aren't sure, call monitor_trap: it takes any words at all.
 *
 * Link with libelvomike-quick.a, beside libelvomike-trap.a.
 *
 * A careful station makes its calls by monitor_quick and its ticks by monitor_trap, which looks the whole
 * table over. So a table that was damaged all the same is told within a tick:
 *
 *     if (r.call == MONITOR_TICK)
 *         monitor_trap(table, words, room, room_words, &r);
 *     else
 *         monitor_quick(table, words, room, room_words, &r);
 *     if (r.number == MONITOR_TABLE_NOT_SOUND) halt();
 */
#ifndef QUICK_H
#define QUICK_H

#include "monitor.h"

#ifdef __cplusplus
extern "C" {
#endif

/*
 * Does the call that the record names on the lent table, as monitor_trap does, but for
 * MONITOR_TABLE_NOT_SOUND, which it never gives: that the table is sound is yours to see to, as said above.
 */
void monitor_quick(uint16_t *table, size_t table_words, uint16_t *room, size_t room_words,
                   struct monitor_registers *registers);

#ifdef __cplusplus
}
#endif

#endif
