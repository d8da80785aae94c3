/* The plain monitor's quick entry, which trusts its table. Assumes a sound one. */
#include "elvomike/quick.h"

#include "plain_calls.h"

void monitor_quick(uint16_t *table, size_t table_words, uint16_t *room, size_t room_words,
                   struct monitor_registers *r)
{
    (void)table_words;
    clear_answer(r);
    if (r->call - 1u >= MONITOR_RAISE)
        r->number = MONITOR_NO_SUCH_CALL;
    else
        serve(table, room, room_words, r);
}
