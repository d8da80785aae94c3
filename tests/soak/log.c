/* The log's text; see log.h. Assumes that there is memory for it. */
#include "log.h"

#include <stdio.h>
#include <stdlib.h>
#include <string.h>

#include "elvomike/log.h"

enum { MARK = 2 }; /* the characters '> ' */

/* Adds a line without the first so many characters, the mark of what a replay writes without one. */
static void put(struct text *text, const char *line, size_t chars, size_t mark)
{
    if (text->room - text->size <= chars) {
        text->room = 2 * text->room + 4096;
        text->bytes = realloc(text->bytes, text->room);
        if (text->bytes == NULL) {
            fprintf(stderr, "soak: there is no memory for the log.\n");
            exit(2);
        }
    }
    memcpy(text->bytes + text->size, line + mark, chars - mark);
    text->size += chars - mark;
    text->bytes[text->size] = 0;
}

void log_begin(struct log *log, const uint16_t *list, unsigned processes)
{
    char line[MONITOR_LOG_CHARS_MOST];
    log->in.size = log->out.size = 0;
    for (unsigned p = 0; p < processes; p++)
        put(&log->in, line, monitor_log_layout(list + MONITOR_ENTRY_WORDS * p, line, sizeof line), 0);
}

void log_call(struct log *log, const struct monitor_registers *r, const uint16_t *room)
{
    char line[MONITOR_LOG_CHARS_MOST];
    put(&log->in, line, monitor_log_call(r, line, sizeof line), 0);
    put(&log->out, line, monitor_log_answer(r, line, sizeof line), MARK);
    for (size_t row = 0; row < monitor_log_rows(r); row++)
        put(&log->out, line, monitor_log_row(room + MONITOR_LISTING_WORDS * row, line, sizeof line), MARK);
}
