/*
 * Single calls on a full table (32 processes, 128 buffers): a refused one, each of the eleven
 * accepted, a send by the first and the last process, the two that move most, interrupts kept in the
 * second edition, semaphores, and both. Assumes the scenes' roles.
 */
#include "scenes.h"

/* The buffer the client owes an answer for: the asker's first, each process owning four. */
enum { ASKED = 4 * (ASKER - 1) + 1 };

static void refused(struct scene *scene)
{
    scene->registers.call = MONITOR_START;
    scene->registers.a = SERVER;
    MAKE_CALL(scene->table, scene->words, scene->room, 0, &scene->registers);
}

static void send(struct scene *scene) { call(scene, MONITOR_SEND, SERVER, 0); }
static void wait_answer(struct scene *scene) { call(scene, MONITOR_WAIT_ANSWER, 1, 0); }
static void wait_event(struct scene *scene) { call(scene, MONITOR_WAIT_EVENT, 0, 0); }
static void send_answer(struct scene *scene) { call(scene, MONITOR_SEND_ANSWER, ASKED, 0); }
static void wait_interrupt(struct scene *scene)
{
    call(scene, MONITOR_WAIT_INTERRUPT, FREE_DEVICE, 9);
}
static void start(struct scene *scene) { call(scene, MONITOR_START, SLEEPER, 0); }
static void stop(struct scene *scene) { call(scene, MONITOR_STOP, SERVER, 0); }
static void clean(struct scene *scene) { call(scene, MONITOR_CLEAN, CLIENT, 0); }
static void tick(struct scene *scene) { call(scene, MONITOR_TICK, 0, 0); }
static void interrupt(struct scene *scene) { call(scene, MONITOR_INTERRUPT, WATCHED_DEVICE, 0); }
static void list(struct scene *scene) { call(scene, MONITOR_LIST, ASKER, 0); }

/* The busy table in the second edition, and with an interrupt kept in it. */
static void busy_second(struct scene *scene)
{
    scene->edition = MONITOR_EDITION_SECOND;
    busy(scene);
}
static void keep(struct scene *scene) { call(scene, MONITOR_INTERRUPT, FREE_DEVICE, 0); }
static void busy_kept(struct scene *scene)
{
    busy_second(scene);
    keep(scene);
}

/* A send by the first or the last process, whose last own buffer is free, or none. */
static void first_has_one(struct scene *scene) { sender(scene, 1, 1); }
static void first_has_none(struct scene *scene) { sender(scene, 1, 0); }
static void last_has_one(struct scene *scene) { sender(scene, 32, 1); }
static void last_has_none(struct scene *scene) { sender(scene, 32, 0); }
static void refused_send(struct scene *scene)
{
    scene->registers.call = MONITOR_SEND;
    scene->registers.a = SERVER;
    MAKE_CALL(scene->table, scene->words, scene->room, 0, &scene->registers);
}

/* Sixteen semaphores, at the first of which nobody waits, or the last half of the processes. */
enum { WAITERS = 16, LONGEST = 33 - WAITERS };
static void unwaited(struct scene *scene) { guarded(scene, 0); }
static void waited(struct scene *scene) { guarded(scene, WAITERS); }
static void lower_open(struct scene *scene) { call(scene, MONITOR_LOWER, OPEN, 0); }
static void lower_shut(struct scene *scene) { call(scene, MONITOR_LOWER, SHUT, 0); }
static void raise_open(struct scene *scene) { call(scene, MONITOR_RAISE, OPEN, 0); }
static void raise_shut(struct scene *scene) { call(scene, MONITOR_RAISE, SHUT, 0); }
static void stop_waiter(struct scene *scene) { call(scene, MONITOR_STOP, LONGEST, 0); }

/* Tables of the second edition with semaphores: all processes wait with a delay; one owns 128 buffers, all queued; one has 64
 * conversations; and a small one. */
static void second(struct scene *scene, unsigned semaphores, void (*prepare)(struct scene *scene))
{
    scene->edition = MONITOR_EDITION_SECOND;
    scene->semaphores = semaphores;
    prepare(scene);
}
static void all_wait(struct scene *scene) { waiting(scene, 32, LONG_DELAY, LONG_DELAY); }
static void second_waiting(struct scene *scene) { second(scene, MONITOR_SEMAPHORES_MOST, all_wait); }
static void second_owning(struct scene *scene) { second(scene, MONITOR_SEMAPHORES_MOST, owning); }
static void second_talkative(struct scene *scene) { second(scene, MONITOR_SEMAPHORES_MOST, talkative); }
static void second_small(struct scene *scene) { second(scene, 2, small); }
static void list_own(struct scene *scene) { call(scene, MONITOR_LIST, CLIENT, 0); }

static const struct bench_case cases[] = {
    {"refused (start of a running process)", busy, refused},
    {"01 send", busy, send},
    {"02 wait answer, not there yet", busy, wait_answer},
    {"03 wait event, none there", busy, wait_event},
    {"04 send answer, the owner wakes", busy, send_answer},
    {"05 wait interrupt", busy, wait_interrupt},
    {"06 start", busy, start},
    {"07 stop", busy, stop},
    {"08 clean", busy, clean},
    {"09 tick, no delay ends", busy, tick},
    {"0A interrupt, the waiter wakes", busy, interrupt},
    {"0B list", busy, list},
    {"01 send by the first of 32, one own buffer free", first_has_one, send},
    {"01 send by the first of 32, none free: refused", first_has_none, refused_send},
    {"01 send by the last of 32, one own buffer free", last_has_one, send},
    {"01 send by the last of 32, none free: refused", last_has_none, refused_send},
    {"09 tick that ends 32 delays", delayed, tick},
    {"08 clean of 64 conversations", talkative, clean},
    {"(ix) 0A interrupt, kept", busy_second, keep},
    {"(ix) 05 wait interrupt, one is kept", busy_kept, wait_interrupt},
    {"(ix) 09 tick, an interrupt is kept", busy_kept, tick},
    {"(xii) 09 tick, 16 semaphores", unwaited, tick},
    {"(xii) 09 tick, 16 semaphores, 16 processes wait at one", waited, tick},
    {"(xii) 0C lower, the caller runs on", waited, lower_open},
    {"(xii) 0C lower, the caller waits behind 16 others", waited, lower_shut},
    {"(xii) 0D raise, nobody waits", waited, raise_open},
    {"(xii) 0D raise, the longest of 16 wakes", waited, raise_shut},
    {"(xii) 07 stop of the longest of 16 waiters", waited, stop_waiter},
    {"edition 1, 16 semaphores: 09 tick, 32 delays, none ends", second_waiting, tick},
    {"edition 1, 16 semaphores: 0B list of 128 rows", second_owning, list_own},
    {"edition 1, 16 semaphores: 08 clean of 64 conversations", second_talkative, clean},
    {"edition 1, 2 semaphores: 01 send, 4 processes", second_small, send},
};

int main(int arguments, char **argument)
{
    return run_cases(cases, sizeof cases / sizeof cases[0], arguments, argument);
}
