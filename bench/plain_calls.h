/*
 * The plain monitor's calls, on the words themselves. Each gives its refusal, 0 if done. Assumes a sound
 * table.
 */
#ifndef PLAIN_CALLS_H
#define PLAIN_CALLS_H

#include <string.h>

#include "plain_moves.h"

static unsigned send(const struct table *t, unsigned c, struct monitor_registers *r)
{
    const struct process *caller = &t->process[c];
    unsigned b = caller->own, end = b + caller->owns;
    if (r->a - 1u >= t->header->processes) return MONITOR_NO_SUCH_PROCESS;
    if (r->a == c) return MONITOR_SENT_TO_ONESELF;
    while (b < end && t->buffer[b].standing != MONITOR_FREE) b++;
    if (b == end) return MONITOR_NO_FREE_BUFFER;
    t->buffer[b].receiver = r->a;
    t->buffer[b].standing = MONITOR_QUEUED;
    memcpy(t->buffer[b].word, r->w, sizeof r->w);
    append(t, r->a, b);
    if (t->process[r->a].state == MONITOR_STATE_WAITS_EVENT) wake(t, r->a, MONITOR_WOKEN_BY_EVENT);
    r->buffer = (uint16_t)b;
    return MONITOR_DONE;
}

static void take(const struct table *t, unsigned c, unsigned b, struct monitor_registers *r)
{
    struct buffer *buffer = &t->buffer[b];
    memcpy(r->r, buffer->word, sizeof r->r);
    r->buffer = (uint16_t)b;
    unlink_buffer(t, c, b);
    if (buffer->standing == MONITOR_QUEUED) {
        r->kind = MONITOR_KIND_MESSAGE;
        buffer->standing = MONITOR_HELD;
    } else {
        r->kind = MONITOR_KIND_ANSWER;
        free_buffer(buffer);
    }
}

static void wait_in(const struct table *t, unsigned c, unsigned state, unsigned delay)
{
    leave_running(t, c);
    t->process[c].state = (uint16_t)state;
    t->process[c].delay = (uint16_t)delay;
}

static unsigned wait_answer(const struct table *t, unsigned c, struct monitor_registers *r)
{
    struct process *caller = &t->process[c];
    unsigned b = r->a;
    if (b - (unsigned)caller->own >= caller->owns) return MONITOR_WRONG_BUFFER;
    unsigned standing = t->buffer[b].standing;
    if (standing == MONITOR_FREE || standing == MONITOR_ORPHANED) return MONITOR_WRONG_BUFFER;
    caller->reason = 0;
    if (standing == MONITOR_ANSWERED) {
        take(t, c, b, r);
    } else {
        wait_in(t, c, MONITOR_STATE_WAITS_ANSWER, 0);
        caller->awaited = (uint16_t)b;
    }
    return MONITOR_DONE;
}

static unsigned wait_event(const struct table *t, unsigned c, struct monitor_registers *r)
{
    t->process[c].reason = 0;
    if (t->process[c].first != 0)
        take(t, c, t->process[c].first, r);
    else
        wait_in(t, c, MONITOR_STATE_WAITS_EVENT, r->a);
    return MONITOR_DONE;
}

static unsigned send_answer(const struct table *t, unsigned c, const struct monitor_registers *r)
{
    unsigned b = r->a;
    if (b - 1 >= t->header->buffers || t->buffer[b].receiver != c) return MONITOR_WRONG_BUFFER;
    if (t->buffer[b].standing == MONITOR_ORPHANED && SLIP != SLIP_ORPHAN_DELIVERED)
        free_buffer(&t->buffer[b]);
    else if (t->buffer[b].standing == MONITOR_HELD || t->buffer[b].standing == MONITOR_ORPHANED)
        answer(t, b, r->w);
    else
        return MONITOR_WRONG_BUFFER;
    return MONITOR_DONE;
}

static unsigned wait_interrupt(const struct table *t, unsigned c, struct monitor_registers *r)
{
    if (r->a >= MONITOR_DEVICES) return MONITOR_NO_SUCH_DEVICE;
    uint16_t *waiter = &t->header->device[r->a];
    if (*waiter == MONITOR_KEPT) {
        *waiter = 0;
        r->kind = MONITOR_KIND_KEPT;
    } else if (*waiter != 0) {
        return MONITOR_DEVICE_TAKEN;
    } else {
        wait_in(t, c, MONITOR_STATE_WAITS_INTERRUPT, r->b);
        t->process[c].device = (uint16_t)(r->a + 1);
        *waiter = (uint16_t)c;
    }
    t->process[c].reason = 0;
    return MONITOR_DONE;
}

/* Cleaning p: what becomes of buffer b; gives 1 if its standing changes. */
static unsigned clean_buffer(const struct table *t, unsigned p, unsigned b)
{
    static const uint16_t cleaned[4] = {0x8000};
    struct buffer *buffer = &t->buffer[b];
    unsigned standing = buffer->standing;
    if (standing == MONITOR_FREE) return 0;
    if (buffer->owner == p) {
        if (standing == MONITOR_ORPHANED) return 0;
        if (standing == MONITOR_HELD && SLIP != SLIP_HELD_FREED) {
            buffer->standing = MONITOR_ORPHANED;
            return 1;
        }
        if (standing != MONITOR_HELD) unlink_buffer(t, standing == MONITOR_QUEUED ? buffer->receiver : p, b);
        free_buffer(buffer);
        return 1;
    }
    if (buffer->receiver != p || standing == MONITOR_ANSWERED) return 0;
    if (standing == MONITOR_ORPHANED) {
        free_buffer(buffer);
        return 1;
    }
    if (standing == MONITOR_QUEUED) unlink_buffer(t, p, b);
    if (SLIP == SLIP_LEFT_WAITING)
        give_back(t, b, cleaned);
    else
        answer(t, b, cleaned);
    return 1;
}

static unsigned clean(const struct table *t, unsigned p)
{
    unsigned changed = 0;
    stop(t, p);
    for (unsigned b = 1; b <= t->header->buffers; b++) changed += clean_buffer(t, p, b);
    return changed;
}

/* Every buffer that isn't free is a tick older, up to 65,535. */
static void grow_older(const struct table *t)
{
    struct buffer *end = t->buffer + t->header->buffers + 1;
    for (struct buffer *b = t->buffer + 1; b < end; b++)
        if (b->standing != MONITOR_FREE && b->age != UINT16_MAX) b->age++;
}

static unsigned tick(const struct table *t)
{
    unsigned woken = 0, current = t->header->ends[FIRST];
    for (unsigned p = 1; p <= t->header->processes; p++) {
        if (t->process[p].delay == 0 || --t->process[p].delay != 0) continue;
        wake(t, p, MONITOR_WOKEN_BY_DELAY);
        woken++;
    }
    if (current != 0) requeue(t, current);
    grow_older(t);
    return woken;
}

static unsigned interrupt(const struct table *t, struct monitor_registers *r)
{
    if (r->a >= MONITOR_DEVICES) return MONITOR_NO_SUCH_DEVICE;
    uint16_t *waiter = &t->header->device[r->a];
    if (*waiter == 0 || *waiter == MONITOR_KEPT) {
        if (t->header->edition == MONITOR_EDITION_SECOND) *waiter = MONITOR_KEPT;
    } else {
        r->kind = *waiter;
        wake(t, r->kind, MONITOR_WOKEN_BY_INTERRUPT);
    }
    return MONITOR_DONE;
}

static unsigned lower(const struct table *t, unsigned c, unsigned s)
{
    if (s - 1u >= t->header->semaphores) return MONITOR_NO_SUCH_SEMAPHORE;
    t->process[c].reason = 0;
    if (--t->semaphore[s].counter < 0) {
        wait_in(t, c, MONITOR_STATE_WAITS_SEMAPHORE, 0);
        append_waiter(t, s, c);
    }
    return MONITOR_DONE;
}

static unsigned raise(const struct table *t, unsigned s)
{
    if (s - 1u >= t->header->semaphores) return MONITOR_NO_SUCH_SEMAPHORE;
    struct semaphore *semaphore = &t->semaphore[s];
    if (semaphore->counter == MONITOR_COUNTER_MOST) return MONITOR_COUNTER_FULL;
    if (semaphore->counter < 0) {
        unsigned longest = semaphore->ends[FIRST];
        leave_semaphore(t, longest);
        wake(t, longest, MONITOR_WOKEN_BY_RAISE);
    } else {
        semaphore->counter++;
    }
    return MONITOR_DONE;
}

static bool is_listed(const struct buffer *b, unsigned p)
{
    return b->standing != MONITOR_FREE && (b->owner == p || b->receiver == p);
}

static unsigned list(const struct table *t, uint16_t *room, size_t room_words,
                     struct monitor_registers *r)
{
    unsigned buffers = t->header->buffers, count = 0;
    for (unsigned b = 1; b <= buffers; b++) count += is_listed(&t->buffer[b], r->a);
    if (room_words < MONITOR_LISTING_WORDS * count) return MONITOR_ROOM_TOO_SHORT;
    for (unsigned b = 1; b <= buffers; b++) {
        const struct buffer *buffer = &t->buffer[b];
        if (!is_listed(buffer, r->a)) continue;
        *room++ = (uint16_t)b;
        *room++ = buffer->owner;
        *room++ = buffer->receiver;
        *room++ = buffer->standing;
        *room++ = buffer->age;
    }
    r->kind = (uint16_t)count;
    return MONITOR_DONE;
}

/* The calls that the current process makes. */
static unsigned call_of_current(const struct table *t, struct monitor_registers *r)
{
    unsigned c = t->header->ends[FIRST];
    if (c == 0) return MONITOR_NO_CURRENT;
    switch (r->call) {
    case MONITOR_SEND: return send(t, c, r);
    case MONITOR_WAIT_ANSWER: return wait_answer(t, c, r);
    case MONITOR_WAIT_EVENT: return wait_event(t, c, r);
    case MONITOR_SEND_ANSWER: return send_answer(t, c, r);
    case MONITOR_WAIT_INTERRUPT: return wait_interrupt(t, c, r);
    case MONITOR_LOWER: return lower(t, c, r->a);
    default: return raise(t, r->a);
    }
}

/* The calls on process a. */
static unsigned call_on_process(const struct table *t, uint16_t *room, size_t room_words,
                                struct monitor_registers *r)
{
    unsigned p = r->a;
    if (p - 1 >= t->header->processes) return MONITOR_NO_SUCH_PROCESS;
    bool stopped = t->process[p].state == MONITOR_STATE_STOPPED;
    switch (r->call) {
    case MONITOR_START:
        if (!stopped) return MONITOR_WRONG_STATE;
        wake(t, p, MONITOR_NO_REASON);
        return MONITOR_DONE;
    case MONITOR_STOP:
        if (stopped) return MONITOR_WRONG_STATE;
        stop(t, p);
        return MONITOR_DONE;
    case MONITOR_CLEAN: r->kind = (uint16_t)clean(t, p); return MONITOR_DONE;
    default: return list(t, room, room_words, r);
    }
}

static unsigned call(const struct table *t, uint16_t *room, size_t room_words,
                     struct monitor_registers *r)
{
    if (r->call <= MONITOR_WAIT_INTERRUPT || r->call >= MONITOR_LOWER) return call_of_current(t, r);
    if (r->call == MONITOR_INTERRUPT) return interrupt(t, r);
    if (r->call != MONITOR_TICK) return call_on_process(t, room, room_words, r);
    r->kind = (uint16_t)tick(t);
    return MONITOR_DONE;
}

/* The record's answer while nothing is done. */
static inline void clear_answer(struct monitor_registers *r)
{
    r->kind = r->buffer = r->current = 0;
    memset(r->r, 0, sizeof r->r);
}

/* The call that the record names, which is one of the thirteen. */
static inline void serve(uint16_t *table, uint16_t *room, size_t room_words, struct monitor_registers *r)
{
    struct table t = table_of(table);
    r->number = (uint16_t)call(&t, room, room_words, r);
    if (r->number == MONITOR_DONE) r->current = t.header->ends[FIRST];
}

#endif
