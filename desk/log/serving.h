/*
 * A log served line by line at a station of either edition, with semaphores or without: the replay's reading and writing
 * (docs/MONITOR.md, 15) around include/elvomike/monitor.h, its lines by log.h. Assumes lines of any length and bytes.
 */
#ifndef SERVING_H
#define SERVING_H

#include <stdbool.h>

#include "elvomike/log.h"

enum { CALL_DIGITS = 26, ANSWER_BYTES = 31, ROW_BYTES = 21 };           /* an answer and a row with their line's end */
enum { SERVED_MOST = ANSWER_BYTES + ROW_BYTES * MONITOR_BUFFERS_MOST }; /* no line is answered with more bytes */
enum { ENTRIES_MOST = MONITOR_PROCESSES_MOST + 1 };                     /* one more than a layout takes */

/* What a station is laid out with beside its processes. */
struct outfit {
    uint16_t edition, counters[MONITOR_SEMAPHORES_MOST];
    size_t semaphores;
};

/* The station: its layout's lines are gathered, it runs, or a refused layout has ended the run. */
struct serving {
    struct outfit outfit;
    enum { GATHERING, RUNNING, ENDED } phase;
    size_t entries;
    uint16_t list[MONITOR_ENTRY_WORDS * ENTRIES_MOST], table[MONITOR_TABLE_WORDS_MOST];
    uint16_t room[MONITOR_LISTING_WORDS * MONITOR_BUFFERS_MOST];
};

/* The call that a line of so many bytes spells, or the layout line, whatever its parts; false where its shape is another. */
bool read_call(const unsigned char *line, size_t length, struct monitor_registers *r);

/* Serves a line: writes the lines that answer it and gives how many bytes they are. 'r' is left with the call and its answer; where
 * the line is no call, with zeros. */
size_t serve_line(struct serving *s, const unsigned char *line, size_t length, struct monitor_registers *r, char *out);

/* The end of the log: a station that no call has laid out is laid out now, and its refusal written. */
size_t serve_end(struct serving *s, char *out);

/* Takes an outfit's words as the desk's options have them, 0 or 1, and 1,0,5; false where they are none. */
bool take_edition(struct outfit *outfit, const char *text);
bool take_counters(struct outfit *outfit, const char *text);

#endif
