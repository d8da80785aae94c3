/* What the port for this PC is told before station_run, and what the program around the station supplies: besides what
 * stands below these are port_halt, and port_laid_out and port_noted, which keep the log. */
#ifndef PC_H
#define PC_H

#include "port.h"

struct pc {
    uint32_t seed;       /* what ticks and interrupts are drawn from; not 0 */
    unsigned tick_calls; /* a tick comes once in so many calls, on the average; more often where nobody runs */
    bool clock;          /* instead, a tick a millisecond by the clock of this PC, in the middle of whatever runs */
};
extern struct pc pc;

/* A drawn number from 0 to below 'below', which isn't 0. */
uint32_t pc_drawn(uint32_t below);

/* Supplied by the program around: a line goes out on paper, or is shown on the screen. */
void pc_paper(const char *line);
void pc_screen(const char *line);

#endif
