/* The entry tried: monitor_trap, which tells no walk. */
#include "trial.h"

const bool walk_told = false;

void entry(uint16_t *table, size_t table_words, uint16_t *room, size_t room_words,
           struct monitor_registers *registers, struct monitor_walk *walk)
{
    (void)walk;
    monitor_trap(table, table_words, room, room_words, registers);
}
