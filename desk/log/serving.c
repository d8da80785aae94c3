/* A log served line by line; see serving.h. */
#include "serving.h"

#include <errno.h>
#include <stdlib.h>
#include <string.h>

/* ---- writing */

static char *end_line(char *out)
{
    *out = '\n';
    return out + 1;
}

/* The lines of include/elvomike/log.h without their marks, which a replay doesn't write. */
static char *put_answer(char *out, const struct monitor_registers *r)
{
    out = monitor_log_put_number(out, r->number, 2);
    out = monitor_log_put_words(out, &r->kind, 1);
    out = monitor_log_put_words(out, &r->buffer, 1);
    out = monitor_log_put_words(out, &r->current, 1);
    return end_line(monitor_log_put_words(out, r->r, 4));
}

static char *put_rows(char *out, const uint16_t *room, size_t rows)
{
    for (; rows > 0; rows--, room += MONITOR_LISTING_WORDS) out = end_line(monitor_log_put_words(out, room, MONITOR_LISTING_WORDS));
    return out;
}

/* ---- the run */

/* The layout; a refused one is answered, and ends the run. */
static char *lay_out(struct serving *s, char *out)
{
    struct monitor_registers answer = {0};
    answer.number = monitor_layout(s->list, MONITOR_ENTRY_WORDS * s->entries, s->outfit.edition, s->outfit.counters, s->outfit.semaphores,
                                   s->table, MONITOR_TABLE_WORDS_MOST);
    s->phase = answer.number == MONITOR_DONE ? RUNNING : ENDED;
    return s->phase == ENDED ? put_answer(out, &answer) : out;
}

/* A layout line; those behind one too many change nothing any more. */
static void gather(struct serving *s, const struct monitor_registers *r)
{
    if (s->entries == ENTRIES_MOST) return;
    uint16_t *entry = s->list + MONITOR_ENTRY_WORDS * s->entries++;
    entry[0] = r->a;
    entry[1] = r->b;
    memcpy(entry + 2, r->w, 3 * sizeof *entry);
}

/* Whether the line is a call here: the parts are zero that it doesn't use, and a layout line comes before the first call. */
static bool is_call(const struct serving *s, const unsigned char *line, size_t length, struct monitor_registers *r)
{
    if (!read_call(line, length, r)) return false;
    return r->call == 0 ? s->phase == GATHERING && r->w[3] == 0 : monitor_log_read_call((const char *)line, length, r);
}

static char *serve(struct serving *s, struct monitor_registers *r, char *out)
{
    if (s->phase == GATHERING) out = lay_out(s, out);
    if (s->phase == ENDED) return out;
    monitor_trap(s->table, MONITOR_TABLE_WORDS_MOST, s->room, sizeof s->room / sizeof *s->room, r);
    out = put_answer(out, r);
    return put_rows(out, s->room, monitor_log_rows(r));
}

size_t serve_line(struct serving *s, const unsigned char *line, size_t length, struct monitor_registers *r, char *out)
{
    char *end = out;
    memset(r, 0, sizeof *r);
    if (!is_call(s, line, length, r)) {
        memset(r, 0, sizeof *r);
        end = end_line(monitor_log_put_number(end, 0xFF, 2));
    } else if (r->call == 0) {
        gather(s, r);
    } else {
        end = serve(s, r, end);
    }
    return (size_t)(end - out);
}

size_t serve_end(struct serving *s, char *out)
{
    return s->phase == GATHERING ? (size_t)(lay_out(s, out) - out) : 0;
}

/* ---- reading */

bool read_call(const unsigned char *line, size_t length, struct monitor_registers *r)
{
    uint16_t words[7]; /* the call, a, b and four words */
    if (length != CALL_DIGITS || !monitor_log_take((const char *)line, length, true, words, 7)) return false;
    r->call = words[0];
    r->a = words[1];
    r->b = words[2];
    memcpy(r->w, words + 3, sizeof r->w);
    return true;
}

/* ---- the outfit */

static bool take_number(const char *text, char **end, uint16_t *number)
{
    errno = 0;
    const unsigned long value = strtoul(text, end, 10);
    *number = (uint16_t)value;
    return *end != text && errno == 0 && value <= UINT16_MAX;
}

bool take_edition(struct outfit *outfit, const char *text)
{
    char *end;
    return take_number(text, &end, &outfit->edition);
}

bool take_counters(struct outfit *outfit, const char *text)
{
    for (char *end; outfit->semaphores < MONITOR_SEMAPHORES_MOST; text = end + 1) {
        if (!take_number(text, &end, &outfit->counters[outfit->semaphores])) return false;
        outfit->semaphores++;
        if (*end != ',') return true;
    }
    return false;
}
