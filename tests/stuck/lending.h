/*
 * monitor_stuck and monitor_rings with everything lent to them on fenced words, by the archive, and
 * what came of it. Assumes nothing of the words.
 */
#ifndef LENDING_H
#define LENDING_H

#include "trial.h"

/* A call for one process, or for all rings. */
struct question {
    bool rings;
    uint16_t process;
    struct run table, room;
};

/* What it leaves behind: the report's three words, the room, and whether anything else was written. */
struct reply {
    uint16_t report[3];
    struct run room;
    bool outside;
};

void ask_archive(const struct question *question, struct reply *reply);
void ask_second(const struct question *question, struct reply *reply);

bool same_reply(const struct reply *x, const struct reply *y);

/* Writes a question with a reply in a few lines. */
void write_reply(FILE *to, const struct question *question, const struct reply *reply);

#endif
