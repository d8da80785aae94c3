/* A log held to the proved monitor; see held.h. */
#include "held.h"

#include <string.h>

void held_begin(struct held *h) { memset(h, 0, sizeof *h); }

/* Counts the call that was asked, or takes it back. */
static void count_call(struct held *h, int by)
{
    if (h->asked.call == 0) return;
    h->calls += (uintmax_t)by;
    if (h->asked.call == MONITOR_TICK) h->ticks += (uintmax_t)by;
    if (h->asked.call == MONITOR_SEND && h->asked.number == MONITOR_DONE) h->talks += (uintmax_t)by;
}

/* Which buffers a clean has answered, and that a send begins anew. */
static void note_cleaned(struct held *h)
{
    const uint16_t *table = h->station.table, processes = table[MONITOR_PROCESSES_PLACE], buffers = table[MONITOR_BUFFERS_PLACE];
    if (h->asked.number != MONITOR_DONE) return;
    if (h->asked.call == MONITOR_SEND) h->cleaned[h->asked.buffer] = 0;
    if (h->asked.call != MONITOR_CLEAN) return;
    for (uint16_t b = 1; b <= buffers; b++) {
        const size_t standing = MONITOR_STANDING_PLACE(processes, b);
        if (h->before[standing] != MONITOR_ANSWERED && table[standing] == MONITOR_ANSWERED) h->cleaned[b] = h->asked.a;
    }
}

/* Who has woken by a clean and not run since. */
static void note_roused(struct held *h)
{
    const uint16_t *table = h->station.table, processes = table[MONITOR_PROCESSES_PLACE];
    for (uint16_t p = 1; p <= processes; p++) {
        const bool runs = table[MONITOR_STATE_PLACE(p)] == MONITOR_STATE_RUNNING, ran = h->before[MONITOR_STATE_PLACE(p)] == MONITOR_STATE_RUNNING;
        if (!runs || table[MONITOR_CURRENT_PLACE] == p) h->roused_now[p] = 0;
        else if (h->asked.call == MONITOR_CLEAN && !ran) h->roused_now[p] = 1;
    }
}

static size_t words_of(const uint16_t *table)
{
    return MONITOR_TABLE_WORDS(table[MONITOR_PROCESSES_PLACE], table[MONITOR_BUFFERS_PLACE], table[MONITOR_SEMAPHORES_PLACE]);
}

size_t held_table_words(const struct held *h) { return h->has_laid ? words_of(h->before) : 0; }

/* A line that isn't marked: the monitor answers it. */
static void ask(struct held *h, const unsigned char *line, size_t length)
{
    static const char no_call[] = "FF\n";
    h->has_laid = h->station.phase == RUNNING;
    if (h->has_laid) memcpy(h->before, h->station.table, sizeof *h->before * words_of(h->station.table));
    memcpy(h->head, line, length < KEPT_BYTES ? length : KEPT_BYTES);
    h->head_length = length < KEPT_BYTES ? length : KEPT_BYTES;
    memcpy(h->roused, h->roused_now, sizeof h->roused);
    h->head_place = h->lines;
    h->due_at = h->given_size = h->answers_behind = 0;
    h->is_open = true;
    h->due_size = serve_line(&h->station, line, length, &h->asked, h->due);
    h->good += h->due_size != sizeof no_call - 1 || memcmp(h->due, no_call, h->due_size) != 0;
    if (h->station.phase != RUNNING) return;
    note_cleaned(h);
    if (h->has_laid) note_roused(h);
    count_call(h, 1);
}

/* The first stray: nothing behind it is served. */
static void stray(struct held *h, uintmax_t line)
{
    h->strayed = true;
    h->stray_line = line;
}

/* A send that only the station accepts is a conversation begun all the same. */
static void count_accepted(struct held *h)
{
    if (h->asked.call == MONITOR_SEND && h->asked.number != MONITOR_DONE && h->given_size == ANSWER_BYTES && memcmp(h->given, "00", 2) == 0)
        h->talks++;
}

/* Whether what is due to the last call was given; at the end of the log it may be torn off instead. */
static void close_call(struct held *h, bool at_end)
{
    if (h->strayed || h->due_at == h->due_size) return;
    if (!at_end) {
        stray(h, h->head_place + 1 + h->answers_behind);
        return;
    }
    h->torn = true;
    if (h->station.phase == RUNNING) count_call(h, -1);
}

static void keep_given(struct held *h, const unsigned char *bytes, size_t size)
{
    if (size > KEPT_BYTES - 2) size = KEPT_BYTES - 2;
    if (h->given_size + size + 1 > GIVEN_MOST) return;
    memcpy(h->given + h->given_size, bytes, size);
    h->given_size += size;
    h->given[h->given_size++] = '\n';
}

/* A marked line is the next that is due; the log's last, where it lacks its end, may be the beginning of it. */
static void take_answer(struct held *h, const unsigned char *answer, size_t size, bool has_end)
{
    h->answers++;
    if (h->is_open) keep_given(h, answer, size);
    if (h->strayed) return;
    const char *next = h->due + h->due_at, *end = memchr(next, '\n', h->due_size - h->due_at);
    const size_t wanted = end ? (size_t)(end - next) : 0;
    const bool begins = end && size <= wanted && memcmp(answer, next, size) == 0;
    if (begins && size == wanted) {
        h->due_at += wanted + 1;
        h->answers_behind++;
    } else if (has_end || !begins) {
        stray(h, h->lines);
        count_accepted(h);
    }
}

static void take_call(struct held *h, const unsigned char *line, size_t length)
{
    struct monitor_registers shape = {0};
    close_call(h, false);
    if (h->strayed) {
        h->is_open = false;
        h->good += h->good == 0 && read_call(line, length, &shape);
    } else if (h->station.phase == ENDED) { /* it went on after a layout that is refused */
        h->head_length = h->given_size = 0;
        h->head_place = h->lines;
        stray(h, h->lines);
    } else {
        ask(h, line, length);
    }
}

void held_line(struct held *h, const unsigned char *line, size_t length, bool has_end)
{
    const bool is_torn_mark = !has_end && length == 1 && line[0] == '>';
    h->lines++;
    if (length >= 2 && line[0] == '>' && line[1] == ' ') take_answer(h, line + 2, length - 2, has_end);
    else if (!is_torn_mark) take_call(h, line, length);
}

void held_end(struct held *h) { close_call(h, true); }
