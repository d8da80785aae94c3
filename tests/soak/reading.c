/* Reading a log; see reading.h. Assumes whole lines, as log.c writes them. */
#include "reading.h"

#include <stdio.h>
#include <string.h>

/* A call with its answer, and who made it. */
struct line {
    unsigned call, a, number, kind, buffer, current, caller;
};

static unsigned digits(const char **text, unsigned count)
{
    unsigned number = 0;
    for (; count > 0; count--, (*text)++) number = 16 * number + (unsigned)(**text <= '9' ? **text - '0' : **text - 'A' + 10);
    return number;
}

static void next_line(const char **text)
{
    while (*(*text)++ != '\n') continue;
}

static bool is_own(const struct reading *g, unsigned b, unsigned process)
{
    return b >= 1 && b <= g->buffers && g->buffer[b].owner == process;
}

static bool is_had(const struct reading *g, unsigned b, unsigned process)
{
    return b >= 1 && b <= g->buffers && g->buffer[b].receiver == process;
}

static unsigned lowest_free(const struct reading *g, unsigned process)
{
    for (unsigned b = 1; b <= g->buffers; b++)
        if (g->buffer[b].owner == process && g->buffer[b].standing == MONITOR_FREE) return b;
    return 0;
}

static void set_free(struct read_buffer *buffer)
{
    buffer->standing = MONITOR_FREE;
    buffer->receiver = buffer->age = 0;
}

/* What a clean of the process does to a buffer: lines 6 to 9. True if its standing changes. */
static bool cleaned(struct read_buffer *buffer, unsigned process)
{
    const unsigned before = buffer->standing;
    if (buffer->owner == process) {
        if (before == MONITOR_QUEUED || before == MONITOR_ANSWERED) set_free(buffer); /* 6 */
        if (before == MONITOR_HELD) buffer->standing = MONITOR_ORPHANED;             /* 7 */
    } else if (buffer->receiver == process) {
        if (before == MONITOR_QUEUED || before == MONITOR_HELD) buffer->standing = MONITOR_ANSWERED; /* 8 */
        if (before == MONITOR_ORPHANED) set_free(buffer);                                            /* 9 */
    }
    return buffer->standing != before;
}

/* An accepted call moves the buffers: lines 1 to 9, and a tick makes the open ones older. False where it can't have been. */
static bool moves(struct reading *g, const struct line *l)
{
    struct read_buffer *buffer = &g->buffer[l->call == MONITOR_SEND_ANSWER ? l->a : l->buffer];
    unsigned changed = 0;
    switch (l->call) {
    case MONITOR_SEND:
        if (l->buffer == 0 || l->buffer != lowest_free(g, l->caller)) return false;
        buffer->standing = MONITOR_QUEUED; /* 1 */
        buffer->receiver = l->a;
        return true;
    case MONITOR_WAIT_ANSWER:
    case MONITOR_WAIT_EVENT:
        if (l->kind == MONITOR_KIND_WAITS) return true;
        if (l->kind == MONITOR_KIND_MESSAGE) {
            if (!is_had(g, l->buffer, l->caller) || buffer->standing != MONITOR_QUEUED) return false;
            buffer->standing = MONITOR_HELD; /* 2 */
        } else {
            if (!is_own(g, l->buffer, l->caller) || buffer->standing != MONITOR_ANSWERED) return false;
            set_free(buffer); /* 3 */
        }
        return true;
    case MONITOR_SEND_ANSWER:
        if (!is_had(g, l->a, l->caller)) return false;
        if (buffer->standing == MONITOR_HELD)
            buffer->standing = MONITOR_ANSWERED; /* 4 */
        else if (buffer->standing == MONITOR_ORPHANED)
            set_free(buffer); /* 5 */
        else
            return false;
        return true;
    case MONITOR_CLEAN:
        for (unsigned b = 1; b <= g->buffers; b++) changed += cleaned(&g->buffer[b], l->a);
        return changed == l->kind;
    case MONITOR_TICK:
        for (unsigned b = 1; b <= g->buffers; b++)
            if (g->buffer[b].standing != MONITOR_FREE && g->buffer[b].age < 65535) g->buffer[b].age++;
    }
    return true;
}

/* Whether the rows that follow are those of the buffers open with the process, and no others. */
static bool lists(const struct reading *g, const struct line *l, const char **out)
{
    unsigned rows = 0;
    for (unsigned b = 1; b <= g->buffers; b++) {
        const struct read_buffer *buffer = &g->buffer[b];
        if (buffer->standing == MONITOR_FREE || (buffer->owner != l->a && buffer->receiver != l->a)) continue;
        if (rows++ == l->kind) return false;
        if (digits(out, 4) != b || digits(out, 4) != buffer->owner || digits(out, 4) != buffer->receiver ||
            digits(out, 4) != buffer->standing || digits(out, 4) != buffer->age)
            return false;
        next_line(out);
    }
    return rows == l->kind;
}

/* Whether a call was refused for want of a free buffer while there was one. */
static bool finds_none(const struct reading *g, const struct line *l)
{
    return l->number != MONITOR_NO_FREE_BUFFER || lowest_free(g, l->caller) == 0;
}

static void read_layout(const char **in, struct reading *g)
{
    memset(g, 0, sizeof *g);
    while (strncmp(*in, "00", 2) == 0) {
        *in += 2 + 4;
        g->processes++;
        for (unsigned owned = digits(in, 4); owned > 0; owned--) g->buffer[++g->buffers].owner = g->processes;
        next_line(in);
    }
}

bool read_log(const struct log *log, struct reading *g)
{
    const char *in = log->in.bytes, *out = log->out.bytes;
    unsigned current = 0;
    read_layout(&in, g);
    for (unsigned number = 1; *in != 0; number++) {
        struct line l = {.caller = current};
        l.call = digits(&in, 2);
        l.a = digits(&in, 4);
        next_line(&in);
        l.number = digits(&out, 2);
        l.kind = digits(&out, 4);
        l.buffer = digits(&out, 4);
        l.current = digits(&out, 4);
        next_line(&out);
        const bool done = l.number == MONITOR_DONE;
        if (done) current = l.current;
        if (!(done ? moves(g, &l) : finds_none(g, &l)) || (done && l.call == MONITOR_LIST && !lists(g, &l, &out))) {
            fprintf(stderr, "soak: call %u of the log, %02X of %u, can't have been answered so.\n", number, l.call, l.a);
            return false;
        }
    }
    return *out == 0;
}
