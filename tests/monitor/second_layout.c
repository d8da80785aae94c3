/*
 * The second implementation's layout: "five words a process, numbered in list order: priority,
 * buffers, three name words", and "a second layout list of counters". Assumes nothing of the lists, nor of
 * what the table held.
 */
#include <string.h>

#include "second.h"

enum { ENTRY_PRIORITY, ENTRY_OWNS, ENTRY_NAME };

/* Line 11: "layout list empty, not in fives, over 32 processes or 128 buffers, bad priority, bad or
 * repeated name". */
static bool wrong_list(const uint16_t *list, size_t list_words)
{
    unsigned long owned = 0;
    if (list_words == 0 || list_words % 5 != 0 || list_words / 5 > MONITOR_PROCESSES_MOST)
        return true;
    for (const uint16_t *entry = list; entry < list + list_words; entry += 5) {
        owned += entry[ENTRY_OWNS];
        if (entry[ENTRY_PRIORITY] < 1 || entry[ENTRY_PRIORITY] > 255) return true;
        if (!second_name(entry + ENTRY_NAME)) return true;
        for (const uint16_t *other = list; other < entry; other += 5)
            if (memcmp(other + ENTRY_NAME, entry + ENTRY_NAME, 3 * sizeof *entry) == 0)
                return true;
    }
    return owned > MONITOR_BUFFERS_MOST;
}

/* "More than 16, or a counter outside its range, is refused at layout with 11"; it is "0 to 32,767". */
static bool wrong_counters(const uint16_t *counters, size_t counter_words)
{
    if (counter_words > 16) return true;
    for (size_t i = 0; i < counter_words; i++)
        if (counters[i] > 32767) return true;
    return false;
}

unsigned second_owned(const uint16_t *list, size_t list_words)
{
    unsigned owned = 0;
    for (size_t i = 0; i < list_words; i += 5) owned += list[i + ENTRY_OWNS];
    return owned;
}

/* Process p as its entry has it, its own buffers after those given out before. */
static void lay_process(uint16_t *t, unsigned p, const uint16_t *entry, unsigned given)
{
    PROCESS(t, p, PROCESS_PRIORITY) = entry[ENTRY_PRIORITY];
    PROCESS(t, p, PROCESS_OWNS) = entry[ENTRY_OWNS];
    PROCESS(t, p, PROCESS_OWN) = (uint16_t)(entry[ENTRY_OWNS] == 0 ? 0 : given + 1);
    for (unsigned i = 0; i < 3; i++) PROCESS(t, p, PROCESS_NAME + i) = entry[ENTRY_NAME + i];
    for (unsigned i = 1; i <= entry[ENTRY_OWNS]; i++)
        BUFFER(t, given + i, BUFFER_OWNER) = (uint16_t)p;
}

void second_lay(const uint16_t *list, unsigned processes, unsigned buffers, unsigned edition,
                const uint16_t *counters, unsigned semaphores, uint16_t *table)
{
    unsigned given = 0;
    memset(table, 0, MONITOR_TABLE_WORDS(processes, buffers, semaphores) * sizeof *table);
    table[HEADER_P] = (uint16_t)processes;
    table[HEADER_B] = (uint16_t)buffers;
    table[HEADER_EDITION] = (uint16_t)edition;
    table[HEADER_SEMAPHORES] = (uint16_t)semaphores;
    for (unsigned p = 1; p <= processes; p++) {
        lay_process(table, p, list + 5 * (p - 1), given);
        given += list[5 * (p - 1) + ENTRY_OWNS];
    }
    for (unsigned s = 1; s <= semaphores; s++) SEMAPHORE(table, s, SEMAPHORE_COUNTER) = counters[s - 1];
}

/* For the edition, "a layout asking for [another] is refused with 11". */
uint16_t second_layout(const uint16_t *list, size_t list_words, uint16_t edition,
                       const uint16_t *counters, size_t counter_words, uint16_t *table,
                       size_t table_words)
{
    if (wrong_list(list, list_words) || edition > 1) return 11;
    if (wrong_counters(counters, counter_words)) return 11;
    unsigned processes = (unsigned)(list_words / 5), buffers = second_owned(list, list_words);
    unsigned semaphores = (unsigned)counter_words;
    if (table_words < MONITOR_TABLE_WORDS(processes, buffers, semaphores)) return 12;
    second_lay(list, processes, buffers, edition, counters, semaphores, table);
    return 0;
}
