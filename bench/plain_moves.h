/*
 * The moves that the plain monitor's calls are made of: in and out of queues, waking, stopping,
 * freeing, answering. Assumes a sound table and numbers of records there are.
 */
#ifndef PLAIN_MOVES_H
#define PLAIN_MOVES_H

#include <string.h>

#include "plain.h"

static inline void unlink_buffer(const struct table *t, unsigned p, unsigned b)
{
    struct buffer *buffer = &t->buffer[b];
    if (buffer->previous != 0)
        t->buffer[buffer->previous].next = buffer->next;
    else
        t->process[p].first = buffer->next;
    if (buffer->next != 0)
        t->buffer[buffer->next].previous = buffer->previous;
    else
        t->process[p].last = buffer->previous;
    buffer->next = buffer->previous = 0;
}

static inline void append(const struct table *t, unsigned p, unsigned b)
{
    unsigned last = t->process[p].last;
    if (last != 0)
        t->buffer[last].next = (uint16_t)b;
    else
        t->process[p].first = (uint16_t)b;
    t->buffer[b].previous = (uint16_t)last;
    t->process[p].last = (uint16_t)b;
}

/* p leaves the queue of processes that has these ends. */
static inline void leave_queue(const struct table *t, uint16_t *ends, unsigned p)
{
    struct process *process = &t->process[p];
    if (process->previous != 0)
        t->process[process->previous].next = process->next;
    else
        ends[FIRST] = process->next;
    if (process->next != 0)
        t->process[process->next].previous = process->previous;
    else
        ends[LAST] = process->previous;
    process->next = process->previous = 0;
}

static inline void leave_running(const struct table *t, unsigned p) { leave_queue(t, t->header->ends, p); }

/* p leaves the queue of its semaphore, which counts one more. */
static inline void leave_semaphore(const struct table *t, unsigned p)
{
    struct semaphore *semaphore = &t->semaphore[t->process[p].semaphore];
    leave_queue(t, semaphore->ends, p);
    semaphore->counter++;
    t->process[p].semaphore = 0;
}

/* p goes last in the queue of semaphore s. */
static inline void append_waiter(const struct table *t, unsigned s, unsigned p)
{
    struct semaphore *semaphore = &t->semaphore[s];
    unsigned last = semaphore->ends[LAST];
    *(last != 0 ? &t->process[last].next : &semaphore->ends[FIRST]) = (uint16_t)p;
    t->process[p].previous = (uint16_t)last;
    semaphore->ends[LAST] = (uint16_t)p;
    t->process[p].semaphore = (uint16_t)s;
}

static inline void end_waits(const struct table *t, unsigned p)
{
    struct process *process = &t->process[p];
    if (process->device != 0) t->header->device[process->device - 1] = 0;
    process->delay = process->awaited = process->device = 0;
}

/* p enters behind all whose priority is at least the bar: looked for from the front, since docs/MONITOR.md, 13 fixes
 * which records are passed. */
static inline void enter_running(const struct table *t, unsigned p, unsigned bar)
{
    struct process *process = &t->process[p];
    unsigned before = 0, after = t->header->ends[FIRST];
    while (after != 0 && t->process[after].priority >= bar) {
        before = after;
        after = t->process[after].next;
    }
    process->next = (uint16_t)after;
    process->previous = (uint16_t)before;
    *(before != 0 ? &t->process[before].next : &t->header->ends[FIRST]) = (uint16_t)p;
    *(after != 0 ? &t->process[after].previous : &t->header->ends[LAST]) = (uint16_t)p;
}

/* p goes behind its equals, and by interrupt in front of them. */
static inline void wake(const struct table *t, unsigned p, unsigned reason)
{
    struct process *process = &t->process[p];
    end_waits(t, p);
    process->state = MONITOR_STATE_RUNNING;
    process->reason = (uint16_t)reason;
    enter_running(t, p, process->priority + (reason == MONITOR_WOKEN_BY_INTERRUPT));
}

/* p leaves and enters again behind its equals; where none stands behind it, that changes nothing. */
static inline void requeue(const struct table *t, unsigned p)
{
    unsigned next = t->process[p].next;
    if (next == 0 || t->process[next].priority < t->process[p].priority) return;
    leave_running(t, p);
    enter_running(t, p, t->process[p].priority);
}

static inline void stop(const struct table *t, unsigned p)
{
    if (t->process[p].state == MONITOR_STATE_RUNNING) leave_running(t, p);
    if (t->process[p].state == MONITOR_STATE_WAITS_SEMAPHORE) leave_semaphore(t, p);
    end_waits(t, p);
    t->process[p].state = MONITOR_STATE_STOPPED;
    t->process[p].reason = 0;
}

static inline void free_buffer(struct buffer *b)
{
    uint16_t owner = b->owner;
    memset(b, 0, sizeof *b);
    b->owner = owner;
}

/* The answer goes into the buffer, and that to its owner, who isn't woken by it. */
static inline void give_back(const struct table *t, unsigned b, const uint16_t *w)
{
    struct buffer *buffer = &t->buffer[b];
    memcpy(buffer->word, w, sizeof buffer->word);
    buffer->standing = MONITOR_ANSWERED;
    append(t, buffer->owner, b);
}

static inline void answer(const struct table *t, unsigned b, const uint16_t *w)
{
    unsigned p = t->buffer[b].owner;
    const struct process *owner = &t->process[p];
    give_back(t, b, w);
    if (owner->state == MONITOR_STATE_WAITS_EVENT ||
        (owner->state == MONITOR_STATE_WAITS_ANSWER && (owner->awaited == b || SLIP == SLIP_STRANGER_WOKEN)))
        wake(t, p, MONITOR_WOKEN_BY_EVENT);
}

#endif
