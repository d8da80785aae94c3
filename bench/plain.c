/* The plain monitor's trap entry: any words may be lent, and a call goes on only after plain_sound. */
#include "plain_calls.h"

void monitor_trap(uint16_t *table, size_t table_words, uint16_t *room, size_t room_words,
                  struct monitor_registers *r)
{
    clear_answer(r);
    if (r->call - 1u >= MONITOR_RAISE)
        r->number = MONITOR_NO_SUCH_CALL;
    else if (!plain_sound(table, table_words))
        r->number = MONITOR_TABLE_NOT_SOUND;
    else
        serve(table, room, room_words, r);
}

uint16_t monitor_sound(const uint16_t *table, size_t table_words) { return plain_sound(table, table_words); }
