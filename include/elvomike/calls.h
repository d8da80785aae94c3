/*
 * The calls as functions, each with its answer in a struct of its own, so that a count can't be read as a message. They are
 * monitor_trap (monitor.h) with its record filled in and read, and need nothing but it: link with libelvomike-trap.a.
 *
 *     MONITOR_TABLE(station, 2, 1, 0);                       two processes, one buffer, no semaphore
 *     uint16_t number = monitor_layout(list, 10, MONITOR_EDITION_FIRST, list, 0, station.words, station.count);
 *     struct monitor_done started = monitor_start(&station, 1);
 *     struct monitor_sent sent = monitor_send(&station, 2, message);
 *     if (sent.number == MONITOR_DONE) waits_for = sent.buffer;
 *
 * Each answer has the call's number, MONITOR_DONE or an enum monitor_refusal, and who is current after it, 0 if nobody runs.
 * Of a refused call every other part is 0 or false. What each call does is said at enum monitor_call.
 */
#ifndef ELVOMIKE_CALLS_H
#define ELVOMIKE_CALLS_H

#include "monitor.h"

#include <stdbool.h>

/* A table as these functions take it: its words, which entry does the calls (monitor_trap, or monitor_quick of quick.h for
 * words that only calls write), and the record of the last call, from which a log is written (log.h). */
struct monitor_table {
    uint16_t *words;
    size_t count;
    void (*entry)(uint16_t *, size_t, uint16_t *, size_t, struct monitor_registers *);
    struct monitor_registers last;
};

/* Declares a table of that name, static, with as many words as so many processes, buffers and semaphores ask for. */
#define MONITOR_TABLE(name, processes, buffers, semaphores)                                              \
    static uint16_t name##_words[MONITOR_TABLE_WORDS(processes, buffers, semaphores)];                   \
    static struct monitor_table name = {name##_words, sizeof name##_words / sizeof(uint16_t), monitor_trap, \
                                        {0, 0, 0, {0, 0, 0, 0}, 0, 0, 0, 0, {0, 0, 0, 0}}}

/* What comes back of a start, a stop, an answer sent and a raise. */
struct monitor_done {
    uint16_t number, current;
};

struct monitor_sent {
    uint16_t number, current;
    uint16_t buffer; /* the one that the message went out in */
};

struct monitor_answer_wait {
    uint16_t number, current;
    bool waits;        /* there is no answer yet, and the caller waits; else it is here, and its buffer free again */
    uint16_t buffer;   /* the one that was sent */
    uint16_t words[4]; /* the answer */
};

struct monitor_event_wait {
    uint16_t number, current;
    enum monitor_kind kind; /* MONITOR_KIND_WAITS, MONITOR_KIND_MESSAGE: the caller holds it; or MONITOR_KIND_ANSWER */
    uint16_t buffer;
    uint16_t words[4];
};

struct monitor_interrupt_wait {
    uint16_t number, current;
    bool waits; /* the caller waits; else an interrupt was kept for the device, and it runs on */
};

struct monitor_semaphore_wait {
    uint16_t number, current;
    bool waits; /* the caller waits; once a raise wakes it, it has what it asked for. Else it has it already */
};

struct monitor_cleaned {
    uint16_t number, current;
    uint16_t changed; /* how many buffers changed their standing */
};

struct monitor_ticked {
    uint16_t number, current;
    uint16_t woken; /* how many processes a delay woke */
};

struct monitor_interrupted {
    uint16_t number, current;
    uint16_t woken; /* the process that waited for the device, 0 if none did */
};

struct monitor_listed {
    uint16_t number, current;
    uint16_t rows; /* how many stand in the room, MONITOR_LISTING_WORDS each */
};

/* Does the call of these parts, with the room lent; the record stays in the table's 'last'. */
static inline const struct monitor_registers *monitor_do(struct monitor_table *table, uint16_t call, uint16_t a, uint16_t b,
                                                         const uint16_t *words, uint16_t *room, size_t room_words)
{
    struct monitor_registers *r = &table->last;
    unsigned i;
    r->call = call;
    r->a = a;
    r->b = b;
    for (i = 0; i < 4; i++) r->w[i] = words != NULL ? words[i] : (uint16_t)0;
    table->entry(table->words, table->count, room, room_words, r);
    return r;
}

/* The same for a call that writes into no room. */
static inline const struct monitor_registers *monitor_ask(struct monitor_table *table, uint16_t call, uint16_t a, uint16_t b,
                                                          const uint16_t *words)
{
    uint16_t none[1] = {0};
    return monitor_do(table, call, a, b, words, none, 0);
}

static inline struct monitor_done monitor_only_done(const struct monitor_registers *r)
{
    const struct monitor_done done = {r->number, r->current};
    return done;
}

/* Sends the four words to that process. */
static inline struct monitor_sent monitor_send(struct monitor_table *table, uint16_t to, const uint16_t *words)
{
    const struct monitor_registers *r = monitor_ask(table, MONITOR_SEND, to, 0, words);
    const struct monitor_sent sent = {r->number, r->current, r->buffer};
    return sent;
}

static inline struct monitor_answer_wait monitor_wait_answer(struct monitor_table *table, uint16_t buffer)
{
    const struct monitor_registers *r = monitor_ask(table, MONITOR_WAIT_ANSWER, buffer, 0, NULL);
    const bool waits = r->number == MONITOR_DONE && r->kind == MONITOR_KIND_WAITS;
    const struct monitor_answer_wait wait = {r->number, r->current, waits, r->buffer, {r->r[0], r->r[1], r->r[2], r->r[3]}};
    return wait;
}

/* Waits for at most so many ticks; 0 is no limit. */
static inline struct monitor_event_wait monitor_wait_event(struct monitor_table *table, uint16_t delay)
{
    const struct monitor_registers *r = monitor_ask(table, MONITOR_WAIT_EVENT, delay, 0, NULL);
    const struct monitor_event_wait wait = {r->number, r->current, (enum monitor_kind)r->kind, r->buffer,
                                            {r->r[0], r->r[1], r->r[2], r->r[3]}};
    return wait;
}

/* Answers a held buffer with the four words. */
static inline struct monitor_done monitor_send_answer(struct monitor_table *table, uint16_t buffer, const uint16_t *words)
{
    return monitor_only_done(monitor_ask(table, MONITOR_SEND_ANSWER, buffer, 0, words));
}

static inline struct monitor_interrupt_wait monitor_wait_interrupt(struct monitor_table *table, uint16_t device, uint16_t delay)
{
    const struct monitor_registers *r = monitor_ask(table, MONITOR_WAIT_INTERRUPT, device, delay, NULL);
    const struct monitor_interrupt_wait wait = {r->number, r->current,
                                                r->number == MONITOR_DONE && r->kind == MONITOR_KIND_WAITS};
    return wait;
}

static inline struct monitor_done monitor_start(struct monitor_table *table, uint16_t process)
{
    return monitor_only_done(monitor_ask(table, MONITOR_START, process, 0, NULL));
}

static inline struct monitor_done monitor_stop(struct monitor_table *table, uint16_t process)
{
    return monitor_only_done(monitor_ask(table, MONITOR_STOP, process, 0, NULL));
}

static inline struct monitor_cleaned monitor_clean(struct monitor_table *table, uint16_t process)
{
    const struct monitor_registers *r = monitor_ask(table, MONITOR_CLEAN, process, 0, NULL);
    const struct monitor_cleaned cleaned = {r->number, r->current, r->kind};
    return cleaned;
}

static inline struct monitor_ticked monitor_tick(struct monitor_table *table)
{
    const struct monitor_registers *r = monitor_ask(table, MONITOR_TICK, 0, 0, NULL);
    const struct monitor_ticked ticked = {r->number, r->current, r->kind};
    return ticked;
}

static inline struct monitor_interrupted monitor_interrupt(struct monitor_table *table, uint16_t device)
{
    const struct monitor_registers *r = monitor_ask(table, MONITOR_INTERRUPT, device, 0, NULL);
    const struct monitor_interrupted interrupted = {r->number, r->current, r->kind};
    return interrupted;
}

/* Lists into a room of so many words. */
static inline struct monitor_listed monitor_list(struct monitor_table *table, uint16_t process, uint16_t *room, size_t room_words)
{
    const struct monitor_registers *r = monitor_do(table, MONITOR_LIST, process, 0, NULL, room, room_words);
    const struct monitor_listed listed = {r->number, r->current, r->kind};
    return listed;
}

/* Its record's kind is 0 either way, but a caller that waits isn't current after the call, and one that runs on is. */
static inline struct monitor_semaphore_wait monitor_lower(struct monitor_table *table, uint16_t semaphore)
{
    const uint16_t caller = table->count > MONITOR_CURRENT_PLACE ? table->words[MONITOR_CURRENT_PLACE] : (uint16_t)0;
    const struct monitor_registers *r = monitor_ask(table, MONITOR_LOWER, semaphore, 0, NULL);
    const struct monitor_semaphore_wait wait = {r->number, r->current, r->number == MONITOR_DONE && r->current != caller};
    return wait;
}

static inline struct monitor_done monitor_raise(struct monitor_table *table, uint16_t semaphore)
{
    return monitor_only_done(monitor_ask(table, MONITOR_RAISE, semaphore, 0, NULL));
}

#endif
