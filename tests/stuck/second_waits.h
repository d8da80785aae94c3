/*
 * A second reading of docs/MONITOR.md, 17.1, to run beside the proved one: from its words
 * alone, in the plainest way, with no care for speed. The shapes are those of include/elvomike/monitor.h.
 * Assumes nothing of the words lent.
 */
#ifndef SECOND_WAITS_H
#define SECOND_WAITS_H

#include <stdbool.h>

#include "elvomike/monitor.h"

void second_stuck(const uint16_t *table, size_t table_words, uint16_t *room, size_t room_words,
                  uint16_t process, struct monitor_stuck_report *report);
void second_rings(const uint16_t *table, size_t table_words, uint16_t *room, size_t room_words,
                  struct monitor_rings_report *report);

/* On a sound table: the process so many links of waiting from p, 0 if the waiting ends before. */
unsigned second_after_links(const uint16_t *t, unsigned p, unsigned links);

/* On a sound table: whether p waits, through such links, for itself. */
bool second_awaits_itself(const uint16_t *t, unsigned p);

#endif
