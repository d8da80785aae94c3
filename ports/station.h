/*
 * A station that runs: processes with stacks of their own, and the proved monitor decides who goes on. This header is
 * for whoever writes the processes; port.h is for whoever brings the station to another processor.
 *
 * A process is a function without arguments. It talks by the calls below, which are the monitor's (docs/MONITOR.md, 6),
 * but block as a process expects: a wait that was woken is asked for again until it is answered or its delay ran out.
 * Each gives MONITOR_DONE, or the number of a refusal, and then nothing has happened. Delays count ticks; 0 is no limit.
 *
 *     static void speller(void)
 *     {
 *         struct station_event event;
 *         for (;;)
 *             if (station_wait_event(0, &event) == MONITOR_DONE && event.kind == MONITOR_KIND_MESSAGE)
 *                 station_answer(event.buffer, event.w);
 *     }
 *
 * Calls go by monitor_quick and ticks by monitor_trap, which looks the whole table over: what damages it is told within
 * a tick. Assumes that nobody but station.c writes the table.
 */
#ifndef STATION_H
#define STATION_H

#include <stdbool.h>

#include "elvomike/quick.h"

/* A process of the station. Its number is its place in the list, from 1. */
struct station_process {
    uint16_t priority, buffers;
    char name[6]; /* one to five letters */
    void (*program)(void);
};

/* Why a station can't go on. */
enum station_trouble {
    STATION_NO_LAYOUT,   /* the layout was refused */
    STATION_NOT_SOUND,   /* a tick was refused with 1: something else has written the table */
    STATION_STACK_OVERRUN /* the process has used more stack than it has */
};

/* What a station is made of. The table and the room for listings are the maker's to set aside. */
struct station {
    const struct station_process *process;
    const uint16_t *counters; /* one for each semaphore; any pointer for none */
    uint16_t processes, semaphores, edition;
    uint16_t *table, *room;
    size_t table_words, room_words;
    /* Called where the station can't go on, with the process that ran; it has to tell, and to halt: it mustn't return. */
    void (*trouble)(enum station_trouble what, unsigned process);
};

/* Lays the station out, starts every process, and runs until one of them calls station_end. A process whose program
 * comes to its end is stopped. */
void station_run(const struct station *station);
void station_end(void);

/* Who makes this call, and how many ticks there were; the ticks go round at 2^32. */
unsigned station_me(void);
uint32_t station_ticks(void);

/* Sends four words to a process; 'buffer' is the one they went out in. Refused with MONITOR_NO_FREE_BUFFER where every
 * buffer of the sender is in use. */
uint16_t station_send(unsigned to, const uint16_t w[4], uint16_t *buffer);

/* Waits for the answer in that buffer. STATION_WITHDRAWN in r[0], zeros besides: its receiver was cleaned. */
uint16_t station_wait_answer(unsigned buffer, uint16_t r[4]);
#define STATION_WITHDRAWN 0x8000u

/* What a wait for an event has brought: a message, which is to be answered in its buffer; an answer; or, of kind
 * MONITOR_KIND_WAITS, nothing, as the delay ran out. */
struct station_event {
    uint16_t kind, buffer, w[4];
};
uint16_t station_wait_event(unsigned delay, struct station_event *event);
uint16_t station_answer(unsigned buffer, const uint16_t w[4]);

/* Waits for an interrupt of the device; 'came' is false where the delay ran out. */
uint16_t station_wait_interrupt(unsigned device, unsigned delay, bool *came);

/* Goes in by a semaphore, or waits until it may; and lets the next one in. */
uint16_t station_lower(unsigned semaphore);
uint16_t station_raise(unsigned semaphore);

/* The operator's calls. A process that was stopped goes on where it was when it is started, and asks for its wait
 * again; one that was cleaned begins its program anew, on an empty stack. */
uint16_t station_start(unsigned process);
uint16_t station_stop(unsigned process);
uint16_t station_clean(unsigned process);

#endif
