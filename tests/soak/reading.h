/* What a log says of each buffer, read by the nine lines of docs/MONITOR.md, 14, and by nothing else. */
#ifndef SOAK_READING_H
#define SOAK_READING_H

#include <stdbool.h>

#include "log.h"

struct read_buffer {
    unsigned owner, receiver, standing, age;
};

struct reading {
    unsigned processes, buffers;
    struct read_buffer buffer[MONITOR_BUFFERS_MOST + 1]; /* from 1 */
};

/* Reads a log whole. False, with a sentence on standard error, at the first answer that a monitor which loses no buffer
 * can't have given: a send in a buffer that isn't its sender's lowest free one, or refused while one is free; a message or an
 * answer from a buffer that has none; a clean that changes another number of standings; another listing. */
bool read_log(const struct log *log, struct reading *reading);

#endif
