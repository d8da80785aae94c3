/*
 * A station that believes a wake: ports/station.c but for one call. Whoever waited for an answer and was woken doesn't
 * ask again: it takes the words that stand in its buffer, as in monitors where a wake hands the answer over. With a
 * monitor that wakes nobody but for its answer that is the same; bench/rates shows what it is with another.
 */
#define station_wait_answer asking_wait_answer
#include "../ports/station.c"
#undef station_wait_answer

uint16_t station_wait_answer(unsigned buffer, uint16_t words[4])
{
    const uint16_t *table = station->table;
    struct monitor_registers r = asking(MONITOR_WAIT_ANSWER, buffer, 0);
    port_trap(&r);
    copy(words, r.r);
    if (r.number != MONITOR_DONE || r.kind != MONITOR_KIND_WAITS) return r.number;
    if (table[MONITOR_STANDING_PLACE(station->processes, buffer)] == MONITOR_ANSWERED) return asking_wait_answer(buffer, words);
    copy(words, table + MONITOR_WORDS_PLACE(station->processes, buffer));
    return MONITOR_DONE;
}
