/* The log of a round as text: the lines that the replay takes, and beside them those that it must give. */
#ifndef SOAK_LOG_H
#define SOAK_LOG_H

#include <stddef.h>

#include "elvomike/monitor.h"

struct text {
    char *bytes; /* ends in a zero byte */
    size_t size, room;
};

struct log {
    struct text in;  /* 26 digits a line */
    struct text out; /* 30 digits an answer, 20 a row of a listing */
};

/* Begins a log anew, with the layout's lines. */
void log_begin(struct log *log, const uint16_t *list, unsigned processes);

/* Adds a call that was made, with its answer and the listing in the room. Parts that the call doesn't use go in as 0. */
void log_call(struct log *log, const struct monitor_registers *r, const uint16_t *room);

#endif
