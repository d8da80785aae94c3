/*
 * The part of a station that is the same on every processor: traps, ticks and interrupts become calls of the monitor,
 * and waits are asked for again until they are answered. Assumes a port (port.h), of whose three entries never two run
 * at once; what stands below 'By processes' runs on a process's own stack, and reads of the table only its own record.
 */
#include "port.h"

static const struct station *station;
static volatile uint32_t ticks;
static bool anew[MONITOR_PROCESSES_MOST + 1]; /* who begins at its program's beginning when it is started */

unsigned station_current(void) { return station->table[MONITOR_CURRENT_PLACE]; }

/* The call that the record names, by the entry that is meant for it, and what it means for the stacks. */
static void serve(struct monitor_registers *r)
{
    const struct station *s = station;
    unsigned ran = station_current();
    if (ran != 0 && !port_stack_kept(ran)) s->trouble(STATION_STACK_OVERRUN, ran);
    if (r->call == MONITOR_TICK)
        monitor_trap(s->table, s->table_words, s->room, s->room_words, r);
    else
        monitor_quick(s->table, s->table_words, s->room, s->room_words, r);
    port_noted(r, s->room);
    if (r->number == MONITOR_TABLE_NOT_SOUND) s->trouble(STATION_NOT_SOUND, ran);
    if (r->number != MONITOR_DONE) return;
    if (r->call == MONITOR_CLEAN) anew[r->a] = true;
    if (r->call == MONITOR_START && anew[r->a]) {
        anew[r->a] = false;
        port_make(r->a);
    }
}

static struct monitor_registers asking(unsigned call, unsigned a, unsigned b)
{
    struct monitor_registers r = {0};
    r.call = (uint16_t)call;
    r.a = (uint16_t)a;
    r.b = (uint16_t)b;
    return r;
}

void station_trap(struct monitor_registers *r) { serve(r); }

void station_tick(void)
{
    struct monitor_registers r = asking(MONITOR_TICK, 0, 0);
    ticks++;
    serve(&r);
}

void station_interrupt(unsigned d)
{
    struct monitor_registers r = asking(MONITOR_INTERRUPT, d, 0);
    serve(&r);
}

/* Process p's entry in the list of a layout. */
static void put_entry(const struct station_process *process, uint16_t *entry)
{
    const unsigned char *name = (const unsigned char *)process->name;
    entry[0] = process->priority;
    entry[1] = process->buffers;
    for (unsigned i = 0; i < 3; i++) entry[2 + i] = 0;
    for (unsigned i = 0; i < 5 && name[i] != 0; i++) entry[2 + i / 2] |= (uint16_t)(name[i] << (i % 2 == 0 ? 8 : 0));
}

void station_run(const struct station *given)
{
    static uint16_t list[MONITOR_ENTRY_WORDS * MONITOR_PROCESSES_MOST];
    size_t words = MONITOR_ENTRY_WORDS * (size_t)given->processes;
    station = given;
    ticks = 0;
    for (unsigned p = 1; p <= given->processes; p++) {
        put_entry(&given->process[p - 1], list + MONITOR_ENTRY_WORDS * (p - 1));
        anew[p] = true;
    }
    if (monitor_layout(list, words, given->edition, given->counters, given->semaphores, given->table,
                       given->table_words) != MONITOR_DONE)
        given->trouble(STATION_NO_LAYOUT, 0);
    port_laid_out(list, words);
    for (unsigned p = 1; p <= given->processes; p++) {
        struct monitor_registers r = asking(MONITOR_START, p, 0);
        serve(&r);
    }
    port_run();
}

/* By processes. Whoever runs these is current. */

unsigned station_me(void) { return station_current(); }

/* On a small processor the number is read in several steps, and a tick may come between two: it is read until it stays. */
uint32_t station_ticks(void)
{
    uint32_t read;
    do read = ticks;
    while (read != ticks);
    return read;
}

void station_end(void) { port_end(); }

void station_begin(void)
{
    for (;;) {
        station->process[station_me() - 1].program();
        station_stop(station_me());
    }
}

static unsigned woken_by(void) { return station->table[MONITOR_REASON_PLACE(station_me())]; }

static void copy(uint16_t *to, const uint16_t *from)
{
    for (unsigned i = 0; i < 4; i++) to[i] = from[i];
}

uint16_t station_send(unsigned to, const uint16_t w[4], uint16_t *buffer)
{
    struct monitor_registers r = asking(MONITOR_SEND, to, 0);
    copy(r.w, w);
    port_trap(&r);
    *buffer = r.buffer;
    return r.number;
}

uint16_t station_wait_answer(unsigned buffer, uint16_t words[4])
{
    struct monitor_registers r;
    do {
        r = asking(MONITOR_WAIT_ANSWER, buffer, 0);
        port_trap(&r);
    } while (r.number == MONITOR_DONE && r.kind == MONITOR_KIND_WAITS);
    copy(words, r.r);
    return r.number;
}

uint16_t station_wait_event(unsigned delay, struct station_event *event)
{
    struct monitor_registers r;
    uint32_t began = station_ticks(), passed = 0;
    do {
        r = asking(MONITOR_WAIT_EVENT, delay - passed, 0);
        port_trap(&r);
        passed = delay == 0 ? 0 : station_ticks() - began;
    } while (r.number == MONITOR_DONE && r.kind == MONITOR_KIND_WAITS && woken_by() != MONITOR_WOKEN_BY_DELAY &&
             (delay == 0 || passed < delay));
    event->kind = r.kind;
    event->buffer = r.buffer;
    copy(event->w, r.r);
    return r.number;
}

uint16_t station_answer(unsigned buffer, const uint16_t w[4])
{
    struct monitor_registers r = asking(MONITOR_SEND_ANSWER, buffer, 0);
    copy(r.w, w);
    port_trap(&r);
    return r.number;
}

/* Started again behind a stop, it asks again: nothing has come. */
uint16_t station_wait_interrupt(unsigned device, unsigned delay, bool *came)
{
    struct monitor_registers r;
    unsigned reason;
    do {
        r = asking(MONITOR_WAIT_INTERRUPT, device, delay);
        port_trap(&r);
        reason = woken_by();
    } while (r.number == MONITOR_DONE && r.kind == MONITOR_KIND_WAITS && reason == MONITOR_NO_REASON);
    *came = r.number == MONITOR_DONE && (r.kind == MONITOR_KIND_KEPT || reason == MONITOR_WOKEN_BY_INTERRUPT);
    return r.number;
}

/* Who was let in by a raise has lowered; who was stopped while it waited has not. */
uint16_t station_lower(unsigned semaphore)
{
    struct monitor_registers r;
    unsigned me = station_me();
    do {
        r = asking(MONITOR_LOWER, semaphore, 0);
        port_trap(&r);
    } while (r.number == MONITOR_DONE && r.current != me && woken_by() != MONITOR_WOKEN_BY_RAISE);
    return r.number;
}

/* A call that has one part and no answer but its number. */
static uint16_t plainly(unsigned call, unsigned a)
{
    struct monitor_registers r = asking(call, a, 0);
    port_trap(&r);
    return r.number;
}

uint16_t station_raise(unsigned semaphore) { return plainly(MONITOR_RAISE, semaphore); }
uint16_t station_start(unsigned process) { return plainly(MONITOR_START, process); }
uint16_t station_stop(unsigned process) { return plainly(MONITOR_STOP, process); }
uint16_t station_clean(unsigned process) { return plainly(MONITOR_CLEAN, process); }
