/*
 * What a station is told when it can't go on, on any port: TROUBLE is 1 for a process that overruns its stack, 2 for one
 * that writes into the table, 3 for a layout that is refused. The station halts with one line.
 */
#include "port.h"
#include "elvomike/why.h"

static uint16_t table[MONITOR_TABLE_WORDS(2, 0, 0)], room[1];

/* Goes down the stack until its far end is passed by a little, and comes back. */
static unsigned deep(volatile unsigned char *from)
{
    volatile unsigned char here[64];
    for (unsigned i = 0; i < sizeof here; i++) here[i] = *from; /* every byte of it: paint that is stepped over isn't touched */
    return port_stack_kept(station_me()) ? deep(here) + here[0] : here[0];
}

static void spoil(void)
{
    volatile unsigned char from = 1;
    struct station_event event;
    uint32_t began = station_ticks();
    station_wait_event(3, &event);
    if (TROUBLE == 1) deep(&from);
    if (TROUBLE == 2) table[MONITOR_PRIORITY_PLACE(2)] = 0;
    while (station_ticks() - began < 5) station_raise(1); /* refused, and a call all the same */
    station_wait_event(2, &event);
    port_print("nobody noticed");
    station_end();
}

static void other(void)
{
    struct station_event event;
    for (;;) station_wait_event(0, &event);
}

/* What a station tells of its table when a tick was refused: here it is the priority of process 2. */
static bool priority_of_2_wrong(void)
{
    struct monitor_fault fault = monitor_why(table, sizeof table / 2);
    return fault.clause == MONITOR_CLAUSE_PRIORITY && fault.record == 2 && fault.place == MONITOR_PRIORITY_PLACE(2);
}

static void trouble(enum station_trouble what, unsigned process)
{
    port_halt(what == STATION_STACK_OVERRUN && process == 1 ? "the stack of process 1 is overrun"
              : what == STATION_NOT_SOUND                   ? priority_of_2_wrong() ? "the table is not sound: clause 9 at 2" : "another clause"
              : what == STATION_NO_LAYOUT                   ? "there is no layout"
                                                            : "another process");
}

int main(void)
{
    static const struct station_process process[] = {{5, TROUBLE == 3, "SPOIL", spoil}, {5, 0, "OTHER", other}};
    static const struct station station = {process, room, 2, 0, MONITOR_EDITION_FIRST, table, room, sizeof table / 2, 1, trouble};
    station_run(&station);
    return 0;
}
