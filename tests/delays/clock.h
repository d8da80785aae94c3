/*
 * Both clocks side by side: the archive's queue on fenced words, and a plain one with a delay for each
 * process that looks at all of them at every tick. Assumes nothing of what they are fed.
 */
#ifndef CLOCK_H
#define CLOCK_H

#include <stdbool.h>
#include <stdio.h>

#include "elvomike/delays.h"

enum { MOST = DELAYS_PROCESSES_MOST, WORDS_MOST = DELAYS_WORDS(DELAYS_PROCESSES_MOST) + 8 };

enum what { WAIT, WAKE, STOP, CLEAN, TICK };

struct event {
    enum what what;
    uint16_t process, delay;
};

/* What an event leaves behind: how many it woke and whom, and the delay left of each process. */
struct outcome {
    size_t woken;
    uint16_t who[MOST], left[MOST + 1];
};

/* The plain clock, for so many processes. */
struct plain {
    unsigned processes;
    uint16_t left[MOST + 1];
};

void plain_feed(struct plain *clock, const struct event *event, struct outcome *outcome);

/* The queue: so many words right before a page that nobody may touch. */
struct queue {
    size_t words;
    uint16_t *word;
};

/* Lends words with the contents given; the queue lent before is gone. */
struct queue lend_queue(const uint16_t *contents, size_t words);

/* Feeds the queue, with room for so many words; gives the number of the answer. */
uint16_t queue_feed(const struct queue *queue, const struct event *event, size_t room_words,
                    struct outcome *outcome);

/* Whether something was written before the words or the room lent, or behind those woken. */
bool outside_written(void);

bool same_outcome(unsigned processes, const struct outcome *x, const struct outcome *y);

void write_outcome(FILE *to, unsigned processes, const struct outcome *outcome);

#endif
