/* The plain monitor's layout. Assumes nothing of the lists, nor of what the table held. */
#include <string.h>

#include "plain.h"

struct entry {
    uint16_t priority, owns, name[3];
};

/* Whether the list can be laid out; counts the buffers it gives out. */
static bool list_ok(const struct entry *entry, size_t processes, unsigned long *buffers)
{
    struct names names = {0};
    for (size_t i = 0; i < processes; i++) {
        uint64_t name = name_number(entry[i].name);
        *buffers += entry[i].owns;
        if (entry[i].priority - 1u >= 255 || !name_legal(name) || !name_added(&names, name))
            return false;
    }
    return *buffers <= MONITOR_BUFFERS_MOST;
}

/* Whether there can be semaphores of these counters. */
static bool counters_ok(const uint16_t *counters, size_t semaphores)
{
    if (semaphores > MONITOR_SEMAPHORES_MOST) return false;
    for (size_t i = 0; i < semaphores; i++)
        if (counters[i] > MONITOR_COUNTER_MOST) return false;
    return true;
}

uint16_t monitor_layout(const uint16_t *list, size_t list_words, uint16_t edition, const uint16_t *counters,
                        size_t counter_words, uint16_t *table, size_t table_words)
{
    const struct entry *entry = (const struct entry *)list;
    size_t processes = list_words / MONITOR_ENTRY_WORDS;
    unsigned long buffers = 0;
    if (processes - 1 >= MONITOR_PROCESSES_MOST || list_words % MONITOR_ENTRY_WORDS != 0)
        return MONITOR_WRONG_LIST;
    if (edition > MONITOR_EDITION_SECOND || !list_ok(entry, processes, &buffers))
        return MONITOR_WRONG_LIST;
    if (!counters_ok(counters, counter_words)) return MONITOR_WRONG_LIST;
    size_t words = MONITOR_TABLE_WORDS(processes, buffers, counter_words);
    if (table_words < words) return MONITOR_TABLE_TOO_SHORT;
    memset(table, 0, words * sizeof *table);
    table[0] = (uint16_t)processes;
    table[1] = (uint16_t)buffers;
    table[MONITOR_EDITION_PLACE] = edition;
    table[MONITOR_SEMAPHORES_PLACE] = (uint16_t)counter_words;
    struct table t = table_of(table);
    unsigned given = 0;
    for (unsigned p = 1; p <= processes; p++) {
        struct process *process = &t.process[p];
        process->priority = entry[p - 1].priority;
        process->owns = entry[p - 1].owns;
        process->own = (uint16_t)(process->owns == 0 ? 0 : given + 1);
        memcpy(process->name, entry[p - 1].name, sizeof process->name);
        for (unsigned left = process->owns; left > 0; left--) t.buffer[++given].owner = (uint16_t)p;
    }
    for (size_t s = 1; s <= counter_words; s++) t.semaphore[s].counter = (int16_t)counters[s - 1];
    return MONITOR_DONE;
}
