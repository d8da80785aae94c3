/*
 * The second implementation's refusals, calls and layout. A refusal is the first line of document
 * 01's table that holds; a call that none refuses does what its line under "The calls" says.
 * Assumes nothing of the words lent: a call goes on only after second_sound.
 */
#include "second.h"

#include <string.h>

#include "second_moves.h"

static unsigned lowest_free(const uint16_t *t, unsigned p)
{
    for (unsigned b = 1; b <= t[HEADER_B]; b++)
        if (BUFFER(t, b, BUFFER_OWNER) == p && BUFFER(t, b, BUFFER_STANDING) == MONITOR_FREE)
            return b;
    return 0;
}

static bool listed(const uint16_t *t, unsigned b, unsigned p)
{
    return BUFFER(t, b, BUFFER_STANDING) != MONITOR_FREE &&
           (BUFFER(t, b, BUFFER_OWNER) == p || BUFFER(t, b, BUFFER_RECEIVER) == p);
}

static unsigned count_listed(const uint16_t *t, unsigned p)
{
    unsigned count = 0;
    for (unsigned b = 1; b <= t[HEADER_B]; b++) count += listed(t, b, p);
    return count;
}

static void list(const uint16_t *t, unsigned p, uint16_t *room)
{
    for (unsigned b = 1; b <= t[HEADER_B]; b++) {
        if (!listed(t, b, p)) continue;
        *room++ = (uint16_t)b;
        *room++ = BUFFER(t, b, BUFFER_OWNER);
        *room++ = BUFFER(t, b, BUFFER_RECEIVER);
        *room++ = BUFFER(t, b, BUFFER_STANDING);
        *room++ = BUFFER(t, b, BUFFER_AGE);
    }
}

/* The process that waits for device d, 0 if none does; a kept interrupt is no waiter. */
static unsigned waiter(const uint16_t *t, unsigned d)
{
    return DEVICE(t, d) == 0xFFFF ? 0 : DEVICE(t, d);
}

/* Line 6: whether caller c may not wait for, or not answer, buffer b. */
static bool wrong_buffer(const uint16_t *t, unsigned call, unsigned c, unsigned b)
{
    if (b < 1 || b > t[HEADER_B]) return true;
    unsigned standing = BUFFER(t, b, BUFFER_STANDING);
    if (call == MONITOR_WAIT_ANSWER)
        return BUFFER(t, b, BUFFER_OWNER) != c || standing == MONITOR_FREE ||
               standing == MONITOR_ORPHANED;
    return BUFFER(t, b, BUFFER_RECEIVER) != c ||
           (standing != MONITOR_HELD && standing != MONITOR_ORPHANED);
}

/* Line 7: start unless stopped, stop if stopped. */
static bool wrong_state(const uint16_t *t, unsigned call, unsigned p)
{
    bool stopped = PROCESS(t, p, PROCESS_STATE) == MONITOR_STATE_STOPPED;
    return (call == MONITOR_START && !stopped) || (call == MONITOR_STOP && stopped);
}

/* "The upper line wins": the lines in the order of docs/MONITOR.md, 7, 0 if none holds. */
static unsigned refusal(const uint16_t *t, size_t words, size_t room_words, unsigned call,
                        unsigned a)
{
    if (call < 1 || call > 13) return 13;
    if (!second_sound(t, words)) return 1;
    unsigned c = t[HEADER_FIRST];
    bool on_semaphore = call == MONITOR_LOWER || call == MONITOR_RAISE;
    bool on_device = call == MONITOR_WAIT_INTERRUPT || call == MONITOR_INTERRUPT;
    bool on_process = call == MONITOR_SEND || call == MONITOR_LIST ||
                      (call >= MONITOR_START && call <= MONITOR_CLEAN);
    bool on_buffer = call == MONITOR_WAIT_ANSWER || call == MONITOR_SEND_ANSWER;
    if ((call <= 5 || on_semaphore) && c == 0) return 2;
    if (on_device && a > 63) return 3;
    if (on_process && (a < 1 || a > t[HEADER_P])) return 4;
    if (call == MONITOR_SEND && a == c) return 8;
    if (call == MONITOR_SEND && lowest_free(t, c) == 0) return 5;
    if (on_buffer && wrong_buffer(t, call, c, a)) return 6;
    if (on_process && wrong_state(t, call, a)) return 7;
    if (call == MONITOR_WAIT_INTERRUPT && waiter(t, a) != 0) return 9;
    if (call == MONITOR_LIST && room_words < 5 * (size_t)count_listed(t, a)) return 10;
    if (on_semaphore && (a < 1 || a > t[HEADER_SEMAPHORES])) return 19;
    if (call == MONITOR_RAISE && counter_of(t, a) == 32767) return 20;
    return 0;
}

static void send(uint16_t *t, struct monitor_registers *r)
{
    unsigned b = lowest_free(t, t[HEADER_FIRST]);
    set_words(t, b, r->w);
    BUFFER(t, b, BUFFER_RECEIVER) = r->a;
    BUFFER(t, b, BUFFER_STANDING) = MONITOR_QUEUED;
    BUFFER(t, b, BUFFER_AGE) = 0;
    append(t, r->a, b);
    if (PROCESS(t, r->a, PROCESS_STATE) == MONITOR_STATE_WAITS_EVENT)
        wake(t, r->a, MONITOR_WOKEN_BY_EVENT);
    r->buffer = (uint16_t)b;
}

/* The caller leaves the running queue and waits. */
static void wait_in(uint16_t *t, unsigned c, unsigned state, unsigned delay)
{
    leave_running(t, c);
    PROCESS(t, c, PROCESS_STATE) = (uint16_t)state;
    PROCESS(t, c, PROCESS_DELAY) = (uint16_t)delay;
}

/* Gives buffer b's words from c's event queue: a message becomes held, an answer is freed. */
static void take(uint16_t *t, unsigned c, unsigned b, struct monitor_registers *r)
{
    for (unsigned i = 0; i < 4; i++) r->r[i] = BUFFER(t, b, BUFFER_WORDS + i);
    r->buffer = (uint16_t)b;
    unlink_buffer(t, c, b);
    if (BUFFER(t, b, BUFFER_STANDING) == MONITOR_QUEUED) {
        r->kind = MONITOR_KIND_MESSAGE;
        BUFFER(t, b, BUFFER_STANDING) = MONITOR_HELD;
    } else {
        r->kind = MONITOR_KIND_ANSWER;
        free_buffer(t, b);
    }
}

static void wait_answer(uint16_t *t, struct monitor_registers *r)
{
    unsigned c = t[HEADER_FIRST];
    PROCESS(t, c, PROCESS_REASON) = 0;
    if (BUFFER(t, r->a, BUFFER_STANDING) == MONITOR_ANSWERED) {
        take(t, c, r->a, r);
    } else {
        wait_in(t, c, MONITOR_STATE_WAITS_ANSWER, 0);
        PROCESS(t, c, PROCESS_AWAITED) = r->a;
    }
}

static void wait_event(uint16_t *t, struct monitor_registers *r)
{
    unsigned c = t[HEADER_FIRST];
    PROCESS(t, c, PROCESS_REASON) = 0;
    if (PROCESS(t, c, PROCESS_FIRST) != 0)
        take(t, c, PROCESS(t, c, PROCESS_FIRST), r);
    else
        wait_in(t, c, MONITOR_STATE_WAITS_EVENT, r->a);
}

/* On a kept interrupt it "clears it and returns at once with kind 3, the caller still running with
 * reason 0". */
static void wait_interrupt(uint16_t *t, struct monitor_registers *r)
{
    unsigned c = t[HEADER_FIRST];
    PROCESS(t, c, PROCESS_REASON) = 0;
    if (DEVICE(t, r->a) == 0xFFFF) {
        DEVICE(t, r->a) = 0;
        r->kind = 3;
        return;
    }
    wait_in(t, c, MONITOR_STATE_WAITS_INTERRUPT, r->b);
    PROCESS(t, c, PROCESS_DEVICE) = (uint16_t)(r->a + 1);
    DEVICE(t, r->a) = (uint16_t)c;
}

static void send_answer(uint16_t *t, const struct monitor_registers *r)
{
    if (BUFFER(t, r->a, BUFFER_STANDING) == MONITOR_ORPHANED)
        free_buffer(t, r->a);
    else
        answer(t, r->a, r->w);
}

/* What cleaning p does to buffer b. */
static void clean_buffer(uint16_t *t, unsigned p, unsigned b)
{
    static const uint16_t cleaned[4] = {0x8000, 0, 0, 0};
    unsigned standing = BUFFER(t, b, BUFFER_STANDING);
    if (BUFFER(t, b, BUFFER_OWNER) == p) {
        if (standing == MONITOR_QUEUED) unlink_buffer(t, BUFFER(t, b, BUFFER_RECEIVER), b);
        if (standing == MONITOR_ANSWERED) unlink_buffer(t, p, b);
        if (standing == MONITOR_QUEUED || standing == MONITOR_ANSWERED) free_buffer(t, b);
        if (standing == MONITOR_HELD) BUFFER(t, b, BUFFER_STANDING) = MONITOR_ORPHANED;
    } else if (BUFFER(t, b, BUFFER_RECEIVER) == p) {
        if (standing == MONITOR_QUEUED) unlink_buffer(t, p, b);
        if (standing == MONITOR_QUEUED || standing == MONITOR_HELD) answer(t, b, cleaned);
        if (standing == MONITOR_ORPHANED) free_buffer(t, b);
    }
}

static void clean(uint16_t *t, struct monitor_registers *r)
{
    stop(t, r->a);
    for (unsigned b = 1; b <= t[HEADER_B]; b++) {
        unsigned before = BUFFER(t, b, BUFFER_STANDING);
        clean_buffer(t, r->a, b);
        if (BUFFER(t, b, BUFFER_STANDING) != before) r->kind++;
    }
}

/* "one more at each tick while open, staying at 65,535 once there". */
static void grow_older(uint16_t *t, unsigned b)
{
    if (BUFFER(t, b, BUFFER_STANDING) == MONITOR_FREE) return;
    if (BUFFER(t, b, BUFFER_AGE) < 65535) BUFFER(t, b, BUFFER_AGE)++;
}

static void tick(uint16_t *t, struct monitor_registers *r)
{
    unsigned current = t[HEADER_FIRST];
    for (unsigned p = 1; p <= t[HEADER_P]; p++) {
        if (PROCESS(t, p, PROCESS_DELAY) == 0 || --PROCESS(t, p, PROCESS_DELAY) != 0) continue;
        wake(t, p, MONITOR_WOKEN_BY_DELAY);
        r->kind++;
    }
    if (current != 0) requeue(t, current);
    for (unsigned b = 1; b <= t[HEADER_B]; b++) grow_older(t, b);
}

/* In edition 1 "an interrupt without a waiter is kept, kind 0: the device word becomes FFFF, a further
 * one changes nothing". */
static void interrupt(uint16_t *t, struct monitor_registers *r)
{
    r->kind = (uint16_t)waiter(t, r->a);
    if (r->kind != 0) wake(t, r->kind, MONITOR_WOKEN_BY_INTERRUPT);
    else if (t[HEADER_EDITION] == 1) DEVICE(t, r->a) = 0xFFFF;
}

/* "LOWER takes one off; below zero the caller waits, new state 5, last in the semaphore's own queue"; it
 * "sets the caller's reason to 0". */
static void lower(uint16_t *t, unsigned s)
{
    unsigned c = t[HEADER_FIRST];
    PROCESS(t, c, PROCESS_REASON) = 0;
    SEMAPHORE(t, s, SEMAPHORE_COUNTER)--;
    if (counter_of(t, s) >= 0) return;
    wait_in(t, c, MONITOR_STATE_WAITS_SEMAPHORE, 0);
    wait_last(t, s, c);
}

/* "RAISE adds one; at zero or below the longest waiter wakes with new reason 5". */
static void raise(uint16_t *t, unsigned s)
{
    unsigned longest = SEMAPHORE(t, s, SEMAPHORE_FIRST);
    SEMAPHORE(t, s, SEMAPHORE_COUNTER)++;
    if (counter_of(t, s) > 0) return;
    wait_no_more(t, longest);
    wake(t, longest, MONITOR_WOKEN_BY_RAISE);
}

static void effect(uint16_t *t, uint16_t *room, struct monitor_registers *r)
{
    switch (r->call) {
    case MONITOR_SEND: send(t, r); break;
    case MONITOR_WAIT_ANSWER: wait_answer(t, r); break;
    case MONITOR_WAIT_EVENT: wait_event(t, r); break;
    case MONITOR_SEND_ANSWER: send_answer(t, r); break;
    case MONITOR_WAIT_INTERRUPT: wait_interrupt(t, r); break;
    case MONITOR_START: wake(t, r->a, MONITOR_NO_REASON); break;
    case MONITOR_STOP: stop(t, r->a); break;
    case MONITOR_CLEAN: clean(t, r); break;
    case MONITOR_TICK: tick(t, r); break;
    case MONITOR_INTERRUPT: interrupt(t, r); break;
    case MONITOR_LOWER: lower(t, r->a); break;
    case MONITOR_RAISE: raise(t, r->a); break;
    case MONITOR_LIST:
        list(t, r->a, room);
        r->kind = (uint16_t)count_listed(t, r->a);
        break;
    }
}

void second_trap(uint16_t *table, size_t table_words, uint16_t *room, size_t room_words,
                 struct monitor_registers *r)
{
    second_walk = (struct monitor_walk){0};
    r->kind = r->buffer = r->current = 0;
    memset(r->r, 0, sizeof r->r);
    r->number = (uint16_t)refusal(table, table_words, room_words, r->call, r->a);
    if (r->number != 0) return;
    effect(table, room, r);
    r->current = table[HEADER_FIRST];
}
