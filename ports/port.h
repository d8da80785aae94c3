/*
 * What a processor has to supply so that a station runs on it, and what it is given. Above it everything is the same:
 * station.c makes calls of traps, ticks and interrupts, and the monitor's current process is who goes on.
 *
 * The rule that a port must keep: of station_trap, station_tick and station_interrupt never two at once. A port that is
 * interrupted in one of them sets a flag, or has its interrupts wait, and makes the other call behind it.
 */
#ifndef PORT_H
#define PORT_H

#include "station.h"

/* The device that the line printer interrupts as: the UART on a board. */
#define PORT_PRINTER 0x0A

/* What the port supplies. */

/* Process p gets an empty stack, painted at its far end; when it next goes on it begins with station_begin. */
void port_make(unsigned p);

/* Goes on with the current process, for the first time; comes back, if ever, behind port_end. */
void port_run(void);

/* By a process: lends the record to station_trap, in whatever state the processor makes calls, and comes back when the
 * process goes on. Where nobody is current the port idles until a tick or an interrupt makes somebody so. */
void port_trap(struct monitor_registers *r);

/* By a process: the station is at its end, and no process goes on. */
void port_end(void);

/* The station can't go on: tells why, and halts. Never comes back. */
void port_halt(const char *why);

/* Whether the paint at the far end of p's stack is whole. */
bool port_stack_kept(unsigned p);

/* By a process: a line on the printer, which interrupts as PORT_PRINTER when it is out; a line on the screen. */
void port_print(const char *line);
void port_show(const char *line);

/* A layout or a call was done or refused: a port that keeps a log writes it down. The room has a listing's rows. */
void port_laid_out(const uint16_t *list, size_t words);
void port_noted(const struct monitor_registers *done, const uint16_t *room);

/* What the port is given, by station.c. */

/* The program of the process that goes on, from its beginning; never comes back. */
void station_begin(void);

/* A call by the process that runs; a tick; an interrupt of device d. Behind each, station_current says who goes on. */
void station_trap(struct monitor_registers *r);
void station_tick(void);
void station_interrupt(unsigned d);

/* Who is current; 0 if nobody is. */
unsigned station_current(void);

#endif
