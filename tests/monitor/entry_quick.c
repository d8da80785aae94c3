/*
 * The entry tried: monitor_quick, on a sound table, and monitor_trap on other words. Which it is monitor_sound is asked, and
 * must say what the second implementation says: if not, the answer has a number that no refusal has.
 */
#include "elvomike/quick.h"

#include "second.h"
#include "trial.h"

const bool walk_told = false;

void entry(uint16_t *table, size_t table_words, uint16_t *room, size_t room_words,
           struct monitor_registers *registers, struct monitor_walk *walk)
{
    (void)walk;
    uint16_t sound = monitor_sound(table, table_words);
    if (sound != second_sound(table, table_words))
        registers->number = UINT16_MAX;
    else if (sound)
        monitor_quick(table, table_words, room, room_words, registers);
    else
        monitor_trap(table, table_words, room, room_words, registers);
}
