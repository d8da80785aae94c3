/*
 * The plain monitor's check that a table is sound, in one pass over its words and one along each
 * queue. Each word is read about once; runs of zeros are looked at in wide reads. Assumes nothing of
 * the words, and a processor that keeps the lower byte first.
 */
#include "plain.h"

#include <string.h>

/* What the passes count: buffers that must be in a queue and are, processes likewise, device
 * waits, semaphores' waiters. */
struct counts {
    unsigned queued, walked, running, waiting, lowering, given;
};

/* Two words, or four, the first lowest. */
static inline uint32_t two(const uint16_t *words)
{
    uint32_t read;
    memcpy(&read, words, sizeof read);
    return read;
}
static inline uint64_t four(const uint16_t *words)
{
    uint64_t read;
    memcpy(&read, words, sizeof read);
    return read;
}

/* Buffer b of owner p, by itself; most are queued. That the receiver of a queued one is one of the
 * processes is told by the event queue that it is found in. */
static inline bool buffer_sound(const struct buffer *b, unsigned p, unsigned processes,
                                struct counts *counts)
{
    unsigned receiver = b->receiver, standing = b->standing;
    if (b->owner != p) return false;
    if (standing == MONITOR_QUEUED) {
        counts->queued++;
        return receiver != p;
    }
    if (standing == MONITOR_FREE) return (two(&b->next) | receiver | b->age | four(b->word)) == 0;
    if (receiver - 1 >= processes || receiver == p) return false;
    if (standing == MONITOR_ANSWERED) {
        counts->queued++;
        return true;
    }
    return (standing == MONITOR_HELD || standing == MONITOR_ORPHANED) && two(&b->next) == 0;
}

/* The buffers of p: the next ones in order, all its own. */
static inline bool own_sound(const struct table *t, unsigned p, struct counts *counts)
{
    const struct process *process = &t->process[p];
    unsigned given = counts->given, owns = process->owns;
    if (process->own != (owns == 0 ? 0 : given + 1)) return false;
    if (given + owns > t->header->buffers) return false;
    counts->given = given + owns;
    const struct buffer *b = &t->buffer[given + 1], *end = b + owns;
    for (; b < end; b++)
        if (!buffer_sound(b, p, t->header->processes, counts)) return false;
    return true;
}

/* Along p's event queue. A record linked both ways from the head can't come twice, so the walk ends;
 * whether all that belong there were met, the sums say at the end. */
static inline bool events_sound(const struct table *t, unsigned p, struct counts *counts)
{
    unsigned before = 0, b = t->process[p].first, buffers = t->header->buffers;
    while (b != 0) {
        if (b > buffers) return false;
        const struct buffer *buffer = &t->buffer[b];
        unsigned home = buffer->standing == MONITOR_QUEUED     ? buffer->receiver
                        : buffer->standing == MONITOR_ANSWERED ? buffer->owner
                                                               : 0;
        if (home != p || buffer->previous != before) return false;
        counts->walked++;
        before = b;
        b = buffer->next;
    }
    return t->process[p].last == before;
}

/* Words of 'waits' below: a process's reason, delay, awaited buffer and device. */
#define REASON ((uint64_t)0xFFFF)
#define DELAY (REASON << 16)
#define AWAITED (REASON << 32)
#define DEVICE (REASON << 48)

/* What p's state asks of its waits, reason and links. Its own buffers are known to be sound. */
static inline bool state_sound(const struct table *t, const struct process *p,
                               struct counts *counts)
{
    uint64_t waits = four(&p->reason), links = two(&p->next) | p->semaphore;
    if (p->state == MONITOR_STATE_RUNNING) {
        counts->running++;
        return p->semaphore == 0 && waits <= MONITOR_WOKEN_BY_RAISE && waits != 4;
    }
    switch (p->state) {
    case MONITOR_STATE_STOPPED: return (waits | links) == 0;
    case MONITOR_STATE_WAITS_EVENT: return ((waits & ~DELAY) | links | p->first) == 0;
    case MONITOR_STATE_WAITS_INTERRUPT:
        counts->waiting++;
        return (waits & DEVICE) != 0 && ((waits & ~(DELAY | DEVICE)) | links) == 0;
    case MONITOR_STATE_WAITS_SEMAPHORE: counts->lowering++; return waits == 0;
    case MONITOR_STATE_WAITS_ANSWER:
        if (p->awaited - (unsigned)p->own >= p->owns) return false;
        if (t->buffer[p->awaited].standing - 1u > 1) return false;
        return ((waits & ~AWAITED) | links) == 0;
    default: return false;
    }
}

static bool processes_sound(const struct table *t, struct counts *counts)
{
    struct names names;
    memset(names.marks, 0, sizeof names.marks);
    names.count = 0;
    for (unsigned p = 1; p <= t->header->processes; p++) {
        const struct process *process = &t->process[p];
        uint64_t name = name_number(process->name);
        if (process->priority - 1u >= 255) return false;
        if (!name_legal(name) || !name_added(&names, name)) return false;
        if (!own_sound(t, p, counts) || !state_sound(t, process, counts)) return false;
        if (!events_sound(t, p, counts)) return false;
    }
    return counts->given == t->header->buffers && counts->walked == counts->queued;
}

static bool running_sound(const struct table *t, const struct counts *counts)
{
    unsigned before = 0, length = 0, p = t->header->ends[FIRST], processes = t->header->processes;
    unsigned priority = 255;
    while (p != 0) {
        if (p > processes) return false;
        const struct process *process = &t->process[p];
        if (process->state != MONITOR_STATE_RUNNING || process->previous != before) return false;
        if (process->priority > priority) return false;
        priority = process->priority;
        length++;
        before = p;
        p = process->next;
    }
    return t->header->ends[LAST] == before && length == counts->running;
}

/* Along the queue of semaphore s; its counter says how many wait. */
static bool semaphore_sound(const struct table *t, unsigned s)
{
    const struct semaphore *semaphore = &t->semaphore[s];
    unsigned before = 0, p = semaphore->ends[FIRST], processes = t->header->processes;
    int left = semaphore->counter < 0 ? -semaphore->counter : 0;
    while (p != 0) {
        if (p > processes || left-- == 0) return false;
        const struct process *process = &t->process[p];
        if (process->state != MONITOR_STATE_WAITS_SEMAPHORE || process->semaphore != s) return false;
        if (process->previous != before) return false;
        before = p;
        p = process->next;
    }
    return semaphore->ends[LAST] == before && left == 0 && semaphore->zero == 0;
}

/* All semaphores; as many wait as there are processes in state 5. */
static bool semaphores_sound(const struct table *t, const struct counts *counts)
{
    unsigned lowering = 0;
    for (unsigned s = 1; s <= t->header->semaphores; s++) {
        if (!semaphore_sound(t, s)) return false;
        if (t->semaphore[s].counter < 0) lowering += (unsigned)-t->semaphore[s].counter;
    }
    return lowering == counts->lowering;
}

/* Devices d to d + 3: each word names a process that waits for that device, or in the second edition
 * says that an interrupt is kept. Counts the waiters. */
static bool four_devices_sound(const struct table *t, unsigned d, unsigned *waiting)
{
    for (unsigned end = d + 4; d < end; d++) {
        unsigned p = t->header->device[d];
        if (p == 0 || (p == MONITOR_KEPT && t->header->edition == MONITOR_EDITION_SECOND)) continue;
        if (p > t->header->processes || t->process[p].device != d + 1) return false;
        ++*waiting;
    }
    return true;
}

/* All devices; most often none is waited for, and one wide look is enough. There are as many waiters as
 * processes in state 4. */
static bool devices_sound(const struct table *t, const struct counts *counts)
{
    uint64_t any = 0;
    unsigned waiting = 0;
    for (unsigned d = 0; d < MONITOR_DEVICES; d += 4) any |= four(&t->header->device[d]);
    for (unsigned d = 0; any != 0 && d < MONITOR_DEVICES; d += 4)
        if (four(&t->header->device[d]) != 0 && !four_devices_sound(t, d, &waiting)) return false;
    return waiting == counts->waiting;
}

bool plain_sound(const uint16_t *words, size_t count)
{
    if (count < 72) return false;
    unsigned processes = words[0], buffers = words[1], semaphores = words[MONITOR_SEMAPHORES_PLACE];
    if (processes - 1 >= MONITOR_PROCESSES_MOST || buffers > MONITOR_BUFFERS_MOST) return false;
    if (semaphores > MONITOR_SEMAPHORES_MOST) return false;
    if (count < MONITOR_TABLE_WORDS(processes, buffers, semaphores)) return false;
    if (words[MONITOR_EDITION_PLACE] > MONITOR_EDITION_SECOND) return false;
    if ((words[6] | words[7]) != 0) return false;
    struct table t = table_of((uint16_t *)words);
    struct counts counts = {0};
    return processes_sound(&t, &counts) && running_sound(&t, &counts) && devices_sound(&t, &counts) &&
           semaphores_sound(&t, &counts);
}
