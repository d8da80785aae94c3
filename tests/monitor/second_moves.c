/*
 * The second implementation's moves. A queue is read into an array, changed there and written back
 * with all its links. Assumes that the table is sound, or on its way from one call's sound table to
 * the next.
 */
#include "second_moves.h"

struct queue {
    unsigned length;
    uint16_t record[MONITOR_BUFFERS_MOST + 1];
};

static void put_in(struct queue *q, unsigned at, unsigned record)
{
    for (unsigned i = q->length; i > at; i--) q->record[i] = q->record[i - 1];
    q->record[at] = (uint16_t)record;
    q->length++;
}

static void take_out(struct queue *q, unsigned record)
{
    unsigned kept = 0;
    for (unsigned i = 0; i < q->length; i++)
        if (q->record[i] != record) q->record[kept++] = q->record[i];
    q->length = kept;
}

static struct queue running_queue(const uint16_t *t)
{
    struct queue q = {0};
    for (unsigned p = t[HEADER_FIRST]; p != 0; p = PROCESS(t, p, PROCESS_NEXT))
        put_in(&q, q.length, p);
    return q;
}

static struct queue waiters(const uint16_t *t, unsigned s)
{
    struct queue q = {0};
    for (unsigned p = SEMAPHORE(t, s, SEMAPHORE_FIRST); p != 0; p = PROCESS(t, p, PROCESS_NEXT))
        put_in(&q, q.length, p);
    return q;
}

static struct queue event_queue(const uint16_t *t, unsigned p)
{
    struct queue q = {0};
    for (unsigned b = PROCESS(t, p, PROCESS_FIRST); b != 0; b = BUFFER(t, b, BUFFER_NEXT))
        put_in(&q, q.length, b);
    return q;
}

/* Record i of a queue and 0 past either end (before the first, i is the largest unsigned). */
static uint16_t at(const struct queue *q, unsigned i) { return i < q->length ? q->record[i] : 0; }

/* The links of a queue of processes. */
static void write_processes(uint16_t *t, const struct queue *q)
{
    for (unsigned i = 0; i < q->length; i++) {
        PROCESS(t, q->record[i], PROCESS_NEXT) = at(q, i + 1);
        PROCESS(t, q->record[i], PROCESS_PREVIOUS) = at(q, i - 1);
    }
}

static void write_running(uint16_t *t, const struct queue *q)
{
    write_processes(t, q);
    t[HEADER_FIRST] = at(q, 0);
    t[HEADER_LAST] = at(q, q->length - 1);
}

static void write_waiters(uint16_t *t, unsigned s, const struct queue *q)
{
    write_processes(t, q);
    SEMAPHORE(t, s, SEMAPHORE_FIRST) = at(q, 0);
    SEMAPHORE(t, s, SEMAPHORE_LAST) = at(q, q->length - 1);
}

static void write_events(uint16_t *t, unsigned p, const struct queue *q)
{
    for (unsigned i = 0; i < q->length; i++) {
        BUFFER(t, q->record[i], BUFFER_NEXT) = at(q, i + 1);
        BUFFER(t, q->record[i], BUFFER_PREVIOUS) = at(q, i - 1);
    }
    PROCESS(t, p, PROCESS_FIRST) = at(q, 0);
    PROCESS(t, p, PROCESS_LAST) = at(q, q->length - 1);
}

void append(uint16_t *t, unsigned p, unsigned b)
{
    struct queue q = event_queue(t, p);
    put_in(&q, q.length, b);
    write_events(t, p, &q);
}

void unlink_buffer(uint16_t *t, unsigned p, unsigned b)
{
    struct queue q = event_queue(t, p);
    take_out(&q, b);
    write_events(t, p, &q);
    BUFFER(t, b, BUFFER_NEXT) = BUFFER(t, b, BUFFER_PREVIOUS) = 0;
}

void wait_last(uint16_t *t, unsigned s, unsigned p)
{
    struct queue q = waiters(t, s);
    put_in(&q, q.length, p);
    write_waiters(t, s, &q);
    PROCESS(t, p, PROCESS_SEMAPHORE) = (uint16_t)s;
}

void wait_no_more(uint16_t *t, unsigned p)
{
    unsigned s = PROCESS(t, p, PROCESS_SEMAPHORE);
    struct queue q = waiters(t, s);
    take_out(&q, p);
    write_waiters(t, s, &q);
    PROCESS(t, p, PROCESS_SEMAPHORE) = 0;
    PROCESS(t, p, PROCESS_NEXT) = PROCESS(t, p, PROCESS_PREVIOUS) = 0;
}

/* "into the running queue behind all of equal or higher priority"; a wake by interrupt "in front of
 * its equals, still behind all of higher priority". Gives the records passed. */
static unsigned enter_running(uint16_t *t, unsigned p, int in_front)
{
    struct queue q = running_queue(t);
    unsigned i = 0, priority = PROCESS(t, p, PROCESS_PRIORITY);
    while (i < q.length && PROCESS(t, q.record[i], PROCESS_PRIORITY) > priority) i++;
    while (!in_front && i < q.length && PROCESS(t, q.record[i], PROCESS_PRIORITY) == priority) i++;
    put_in(&q, i, p);
    write_running(t, &q);
    return i;
}

struct monitor_walk second_walk;

/* Counts an entry by a wake or a start that passed so many records. */
static void note_entry(unsigned passed)
{
    second_walk.entries++;
    second_walk.passed = (uint16_t)(second_walk.passed + passed);
    if (passed > second_walk.most) second_walk.most = (uint16_t)passed;
}

void requeue(uint16_t *t, unsigned p)
{
    leave_running(t, p);
    second_walk.moved = (uint16_t)enter_running(t, p, 0);
}

void leave_running(uint16_t *t, unsigned p)
{
    struct queue q = running_queue(t);
    take_out(&q, p);
    write_running(t, &q);
    PROCESS(t, p, PROCESS_NEXT) = PROCESS(t, p, PROCESS_PREVIOUS) = 0;
}

/* "words 6 to 8 and its device word 0". */
static void end_waits(uint16_t *t, unsigned p)
{
    if (PROCESS(t, p, PROCESS_DEVICE) != 0) DEVICE(t, PROCESS(t, p, PROCESS_DEVICE) - 1) = 0;
    PROCESS(t, p, PROCESS_DELAY) = 0;
    PROCESS(t, p, PROCESS_AWAITED) = 0;
    PROCESS(t, p, PROCESS_DEVICE) = 0;
}

void wake(uint16_t *t, unsigned p, unsigned reason)
{
    end_waits(t, p);
    PROCESS(t, p, PROCESS_STATE) = MONITOR_STATE_RUNNING;
    PROCESS(t, p, PROCESS_REASON) = (uint16_t)reason;
    note_entry(enter_running(t, p, reason == MONITOR_WOKEN_BY_INTERRUPT));
}

void stop(uint16_t *t, unsigned p)
{
    if (PROCESS(t, p, PROCESS_SEMAPHORE) != 0) {
        SEMAPHORE(t, PROCESS(t, p, PROCESS_SEMAPHORE), SEMAPHORE_COUNTER)++;
        wait_no_more(t, p);
    }
    leave_running(t, p);
    end_waits(t, p);
    PROCESS(t, p, PROCESS_STATE) = MONITOR_STATE_STOPPED;
    PROCESS(t, p, PROCESS_REASON) = 0;
}

void free_buffer(uint16_t *t, unsigned b)
{
    for (unsigned i = 0; i < 10; i++)
        if (i != BUFFER_OWNER) BUFFER(t, b, i) = 0;
}

void set_words(uint16_t *t, unsigned b, const uint16_t *w)
{
    for (unsigned i = 0; i < 4; i++) BUFFER(t, b, BUFFER_WORDS + i) = w[i];
}

void answer(uint16_t *t, unsigned b, const uint16_t *w)
{
    unsigned owner = BUFFER(t, b, BUFFER_OWNER);
    set_words(t, b, w);
    BUFFER(t, b, BUFFER_STANDING) = MONITOR_ANSWERED;
    append(t, owner, b);
    if (PROCESS(t, owner, PROCESS_STATE) == MONITOR_STATE_WAITS_EVENT ||
        (PROCESS(t, owner, PROCESS_STATE) == MONITOR_STATE_WAITS_ANSWER &&
         PROCESS(t, owner, PROCESS_AWAITED) == b))
        wake(t, owner, MONITOR_WOKEN_BY_EVENT);
}
