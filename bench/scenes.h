/*
 * Tables in the states that are measured, made by calls alone, and the frame that measures a case.
 * Assumes a monitor that does what docs/MONITOR.md says: a call it refuses ends the program.
 */
#ifndef SCENES_H
#define SCENES_H

#include "entry.h"

struct scene {
    size_t words;
    uint16_t edition;    /* in which it is laid out, */
    unsigned semaphores; /* and with how many semaphores */
    uint16_t table[MONITOR_TABLE_WORDS_MOST];
    uint16_t room[MONITOR_LISTING_WORDS * MONITOR_BUFFERS_MOST];
    struct monitor_registers registers;
};

/* Roles in the scenes: the client is current and the server next; the one who waits for the client's
 * answer, the stopped one and the one who waits for a device are in 'busy' only. */
enum { CLIENT = 1, SERVER = 2, ASKER = 29, SLEEPER = 31, WATCHER = 32 };
enum { WATCHED_DEVICE = 5, FREE_DEVICE = 6, LONG_DELAY = 60000 };

/* Semaphores of 'guarded': the first lets nobody in, the others one each. */
enum { SHUT = 1, OPEN = 2 };

/* Does a call; a refusal ends the program. And by a named entry. */
void call(struct scene *scene, unsigned number, unsigned a, unsigned b);
typedef void entry(uint16_t *table, size_t table_words, uint16_t *room, size_t room_words, struct monitor_registers *r);
void call_by(entry *made_by, struct scene *scene, unsigned number, unsigned a, unsigned b);

/* Lays out a table by a list of the form that monitor_layout takes. Its semaphores are open for one, but for the first, which is shut. */
void lay_list(struct scene *scene, const uint16_t *list, unsigned processes, unsigned buffers);

/* The stopped process p does a call, the only one to run. And it sends a message and is stopped; gives the buffer. */
void alone(struct scene *scene, unsigned p, unsigned number, unsigned a, unsigned b);
unsigned send_alone(struct scene *scene, unsigned from, unsigned to);

/* All processes run, the client has one buffer free and the server an empty event queue; all other
 * buffers are queued. So many processes, at least 4, and buffers, dealt out evenly; 4 with 8; and 32 with 128. */
void all_run(struct scene *scene, unsigned processes, unsigned buffers);
void small(struct scene *scene);
void full(struct scene *scene);

/* A message's round trip on such a table: the client sends and waits, the server takes and answers, the client
 * collects. Five calls, after which the table is as before. */
void round_trip(struct scene *scene);

/* As full, but with each role filled. */
void busy(struct scene *scene);

/* 32 processes, 128 buffers; only process p runs, and has so many own buffers free. */
void sender(struct scene *scene, unsigned p, unsigned free);

/* 32 processes, 128 buffers; the first so many have taken their messages and wait for an event, the first of them
 * with one delay and the others with another. The others are stopped. */
void waiting(struct scene *scene, unsigned count, unsigned first_delay, unsigned delay);

/* All of them, with a delay of 1. */
void delayed(struct scene *scene);

/* 32 processes, 128 buffers queued, 33 of them sent by the client and 31 sent to it. */
void talkative(struct scene *scene);

/* 32 processes, 128 buffers, all the client's, and queued. */
void owning(struct scene *scene);

/* 32 processes, 128 buffers queued; each process waits for an answer of the one that 'holder' names
 * for it, and runs where that is 0. */
void waiting_for(struct scene *scene, unsigned (*holder)(unsigned p));

/* As full, with 16 semaphores; so many processes, the last of the 32, wait at the shut one. */
void guarded(struct scene *scene, unsigned waiters);

/* So many processes, all stopped, and buffers, dealt out evenly; each is sent, round to the other processes, but for
 * so many of the client's, which are free. The first message of the server is the client's first. A single process can't
 * send: its buffers are free. Semaphores as in 'guarded'. */
void stocked(struct scene *scene, unsigned processes, unsigned buffers, unsigned free, unsigned semaphores);

/* Starts every process that is stopped. */
void start_stopped(struct scene *scene);

/* A case: what is prepared, and what is measured once. */
struct bench_case {
    const char *name;
    void (*prepare)(struct scene *scene);
    void (*once)(struct scene *scene);
};

/* With no arguments prints the names of the cases; with a name's place and a number of times does it
 * so often, each on a table fresh from preparing. The work besides is the same for every number, so
 * that the difference of two runs is the case's own. */
int run_cases(const struct bench_case *cases, unsigned count, int arguments, char **argument);

/* Does the case once on what was prepared: callgrind can be told to count what goes on in here. */
void measured(const struct bench_case *the_case, struct scene *scene);

#endif
