/*
 * Both clocks with 1, 8 and 32 processes waiting of 32: the delay queue, whose words stand where a scene has
 * its table, and the plain clock, call 09 on a full table. Assumes that nothing is refused: a call that is
 * ends the program.
 */
#include <stdio.h>
#include <stdlib.h>

#include "elvomike/delays.h"
#include "scenes.h"

enum { ALL = DELAYS_PROCESSES_MOST, NEWCOMER = ALL };

static void done(uint16_t number)
{
    if (number == DELAYS_DONE) return;
    fprintf(stderr, "a call was refused with %u\n", (unsigned)number);
    exit(2);
}

/* A queue in which the first so many processes wait, the first of them with one delay, each other with more
 * than the one before it or with the same. */
static void queue(struct scene *scene, unsigned count, unsigned first_delay, unsigned delay, unsigned more)
{
    scene->words = DELAYS_WORDS(ALL);
    done(delays_make(scene->table, scene->words, ALL));
    for (unsigned p = 1; p <= count; p++)
        done(delays_wait(scene->table, scene->words, (uint16_t)p,
                         (uint16_t)(p == 1 ? first_delay : delay + more * p)));
}

static void queue_0(struct scene *scene) { queue(scene, 0, 0, 0, 0); }
static void queue_1(struct scene *scene) { queue(scene, 1, 1000, 1000, 1); }
static void queue_7(struct scene *scene) { queue(scene, 7, 1000, 1000, 1); }
static void queue_8(struct scene *scene) { queue(scene, 8, 1000, 1000, 1); }
static void queue_31(struct scene *scene) { queue(scene, 31, 1000, 1000, 1); }
static void queue_32(struct scene *scene) { queue(scene, 32, 1000, 1000, 1); }
static void one_of_1(struct scene *scene) { queue(scene, 1, 1, 0, 0); }
static void one_of_8(struct scene *scene) { queue(scene, 8, 1, 1000, 1); }
static void one_of_32(struct scene *scene) { queue(scene, 32, 1, 1000, 1); }
static void all_of_8(struct scene *scene) { queue(scene, 8, 1, 1, 0); }
static void all_of_32(struct scene *scene) { queue(scene, 32, 1, 1, 0); }

static void queue_tick(struct scene *scene)
{
    done(delays_tick(scene->table, scene->words, scene->room, ALL).number);
}
static void wait_first(struct scene *scene) { done(delays_wait(scene->table, scene->words, NEWCOMER, 1)); }
static void wait_last(struct scene *scene) { done(delays_wait(scene->table, scene->words, NEWCOMER, 60000)); }
static void leave_1(struct scene *scene) { done(delays_leave(scene->table, scene->words, 1)); }
static void leave_8(struct scene *scene) { done(delays_leave(scene->table, scene->words, 8)); }
static void leave_32(struct scene *scene) { done(delays_leave(scene->table, scene->words, 32)); }
static void left_32(struct scene *scene) { done(delays_left(scene->table, scene->words, 32).number); }
static void shown(struct scene *scene)
{
    if (!delays_shown(scene->table, scene->words)) done(DELAYS_NO_QUEUE);
}

/* ---- the plain clock */
static void plain_0(struct scene *scene) { waiting(scene, 0, 0, 0); }
static void plain_1(struct scene *scene) { waiting(scene, 1, LONG_DELAY, LONG_DELAY); }
static void plain_8(struct scene *scene) { waiting(scene, 8, LONG_DELAY, LONG_DELAY); }
static void plain_32(struct scene *scene) { waiting(scene, 32, LONG_DELAY, LONG_DELAY); }
static void plain_one_of_1(struct scene *scene) { waiting(scene, 1, 1, LONG_DELAY); }
static void plain_one_of_8(struct scene *scene) { waiting(scene, 8, 1, LONG_DELAY); }
static void plain_one_of_32(struct scene *scene) { waiting(scene, 32, 1, LONG_DELAY); }
static void plain_all_of_8(struct scene *scene) { waiting(scene, 8, 1, 1); }
static void plain_tick(struct scene *scene) { call(scene, MONITOR_TICK, 0, 0); }
static void nothing(struct scene *scene) { call(scene, MONITOR_INTERRUPT, FREE_DEVICE, 0); }

static const struct bench_case cases[] = {
    {"queue: tick, 1 waits, none ends", queue_1, queue_tick},
    {"queue: tick, 8 wait, none ends", queue_8, queue_tick},
    {"queue: tick, 32 wait, none ends", queue_32, queue_tick},
    {"queue: tick, 1 waits and ends", one_of_1, queue_tick},
    {"queue: tick, 8 wait, one ends", one_of_8, queue_tick},
    {"queue: tick, 32 wait, one ends", one_of_32, queue_tick},
    {"queue: tick, 8 wait, all end", all_of_8, queue_tick},
    {"queue: tick, 32 wait, all end", all_of_32, queue_tick},
    {"queue: wait, none waits", queue_0, wait_last},
    {"queue: wait, 7 wait and end later", queue_7, wait_first},
    {"queue: wait, 31 wait and end later", queue_31, wait_first},
    {"queue: wait, 7 wait and end before", queue_7, wait_last},
    {"queue: wait, 31 wait and end before", queue_31, wait_last},
    {"queue: leave, the only one", queue_1, leave_1},
    {"queue: leave, the last of 8", queue_8, leave_8},
    {"queue: leave, the last of 32", queue_32, leave_32},
    {"queue: left, the last of 32", queue_32, left_32},
    {"queue: shown, 32 wait", queue_32, shown},
    {"call 09: tick, 1 waits, none ends", plain_1, plain_tick},
    {"call 09: tick, 8 wait, none ends", plain_8, plain_tick},
    {"call 09: tick, 32 wait, none ends", plain_32, plain_tick},
    {"call 09: tick, 1 waits and ends", plain_one_of_1, plain_tick},
    {"call 09: tick, 8 wait, one ends", plain_one_of_8, plain_tick},
    {"call 09: tick, 32 wait, one ends", plain_one_of_32, plain_tick},
    {"call 09: tick, 8 wait, all end", plain_all_of_8, plain_tick},
    {"call 09: tick, 32 wait, all end", delayed, plain_tick},
    {"call 0A without a waiter, none waits", plain_0, nothing},
    {"call 0A without a waiter, 1 waits", plain_1, nothing},
    {"call 0A without a waiter, 8 wait", plain_8, nothing},
    {"call 0A without a waiter, 32 wait", plain_32, nothing},
};

int main(int arguments, char **argument)
{
    return run_cases(cases, sizeof cases / sizeof cases[0], arguments, argument);
}
