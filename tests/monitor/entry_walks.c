/* The entry tried: monitor_trap_walked. */
#include "trial.h"

const bool walk_told = true;

void entry(uint16_t *table, size_t table_words, uint16_t *room, size_t room_words,
           struct monitor_registers *registers, struct monitor_walk *walk)
{
    monitor_trap_walked(table, table_words, room, room_words, registers, walk);
}
