/* A log that carries a station's answers, held to the proved monitor line by line, up to its first stray. */
#ifndef HELD_H
#define HELD_H

#include "../log/serving.h"

enum { KEPT_BYTES = 64, GIVEN_MOST = 2 * SERVED_MOST + KEPT_BYTES };

/* What is held and counted of a log. Calls, ticks and talks (conversations begun) count up to the stray, its own call with them. */
struct held {
    struct serving station;
    uintmax_t lines, calls, ticks, talks;
    uintmax_t good, answers; /* how many lines are calls or layout lines, and how many are marked */
    bool strayed, torn;      /* torn: the log ends within what answers its last call, which then isn't counted */
    uintmax_t stray_line;

    /* The call that is being judged, with the monitor's answer; its line, as far as it is kept, and place; whether the station was
     * laid out before it, and the table then. */
    struct monitor_registers asked;
    unsigned char head[KEPT_BYTES];
    size_t head_length;
    uintmax_t head_place;
    bool has_laid;
    uint16_t before[MONITOR_TABLE_WORDS_MOST];

    /* What is due to it and how far that was given, in how many lines; and what was given, right or not. */
    char due[SERVED_MOST], given[GIVEN_MOST];
    size_t due_size, due_at, given_size;
    uintmax_t answers_behind;
    bool is_open; /* whether answers still belong to the call */

    uint16_t cleaned[MONITOR_BUFFERS_MOST + 1]; /* by buffer: whose clean has answered it, or 0 */

    /* By process, before the call that is judged and behind it: 1 where a clean has woken it and it hasn't run since, or 0. */
    uint16_t roused[MONITOR_PROCESSES_MOST + 1], roused_now[MONITOR_PROCESSES_MOST + 1];
};

/* Begins with another log; the outfit stays as the caller sets it behind this. */
void held_begin(struct held *h);

/* A line without its end, kept as far as KEPT_BYTES and so long; the last of a log may lack its end. */
void held_line(struct held *h, const unsigned char *line, size_t length, bool has_end);

/* The log's end. */
void held_end(struct held *h);

/* How many words the table had before the call that is judged. */
size_t held_table_words(const struct held *h);

#endif
