/* The station's make-up, and the little that its processes share. */
#include "proofreader.h"
#include "elvomike/why.h"

static const struct station_process process[PROCESSES] = {
    {3, READER_BUFFERS, "READ", reader}, {3, 0, "SPELL", speller},         {2, 0, "SHOW", screen},
    {5, 0, "PRINT", printer},            {9, 0, "OPER", operator_at_work},
};
static const uint16_t counters[SEMAPHORES] = {1, 1};
static uint16_t table[MONITOR_TABLE_WORDS(PROCESSES, BUFFERS, SEMAPHORES)];
static uint16_t room[MONITOR_LISTING_WORDS * BUFFERS];

struct proofreader proofreader = {.seed = 1};

char *put_text(char *to, const char *text)
{
    while (*text != 0) *to++ = *text++;
    *to = 0;
    return to;
}

char *put_number(char *to, unsigned long number)
{
    char digits[24];
    unsigned count = 0;
    do digits[count++] = (char)('0' + number % 10);
    while ((number /= 10) != 0);
    while (count > 0) *to++ = digits[--count];
    *to = 0;
    return to;
}

/* Which clause of a sound table fails, at which record, and which word is named (docs/MONITOR.md, 17.6). */
static char *put_fault(char *to)
{
    struct monitor_fault fault = monitor_why(table, proofreader_station.table_words);
    to = put_number(put_text(to, "clause "), fault.clause);
    to = put_number(put_text(to, " fails at record "), fault.record);
    return put_number(put_text(to, ", word "), fault.place);
}

/* The station can't go on: says why in a sentence. */
static void trouble(enum station_trouble what, unsigned p)
{
    char why[128], *end = put_text(why, p == 0 ? "nobody" : process[p - 1].name);
    if (what == STATION_STACK_OVERRUN)
        put_text(end, " has overrun its stack");
    else if (what == STATION_NOT_SOUND)
        put_fault(put_text(end, " ran when a tick found that the table is not sound: "));
    else
        put_text(why, "it can't be laid out");
    port_halt(why);
}

const struct station proofreader_station = {
    .process = process,
    .counters = counters,
    .processes = PROCESSES,
    .semaphores = SEMAPHORES,
    .edition = MONITOR_EDITION_SECOND,
    .table = table,
    .room = room,
    .table_words = sizeof table / sizeof table[0],
    .room_words = sizeof room / sizeof room[0],
    .trouble = trouble,
};
