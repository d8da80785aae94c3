/*
 * Each call once by monitor_trap, in a usual case, on tables of a given size, and a round trip by the quick entry: see
 * bench/curve. All processes run but for those a case speaks of, all buffers are queued, and the client is current.
 * Assumes the scenes' roles, and to be compiled with QUICK, so that tables are made in less time.
 *
 *     curve PROCESSES BUFFERS     names the calls that such a table lets be made, and makes each in 'measured'
 */
#include <stdio.h>
#include <stdlib.h>

#include "scenes.h"

/* The table's size, and the buffer that the client owes an answer for. */
static unsigned processes, buffers, asked_buffer;

static void running(struct scene *scene)
{
    stocked(scene, processes, buffers, 0, 0);
    start_stopped(scene);
}

static void one_free(struct scene *scene)
{
    stocked(scene, processes, buffers, 1, 0);
    start_stopped(scene);
}

/* The client holds the server's message, for whose answer the server waits. */
static void asked(struct scene *scene)
{
    stocked(scene, processes, buffers, 0, 0);
    alone(scene, CLIENT, MONITOR_WAIT_EVENT, 0, 0);
    asked_buffer = scene->registers.buffer;
    call(scene, MONITOR_STOP, CLIENT, 0);
    alone(scene, SERVER, MONITOR_WAIT_ANSWER, asked_buffer, 0);
    start_stopped(scene);
}

/* The last process is stopped. */
static void one_stopped(struct scene *scene)
{
    running(scene);
    call(scene, MONITOR_STOP, processes, 0);
}

/* The last process waits for a device. */
static void watched(struct scene *scene)
{
    stocked(scene, processes, buffers, 0, 0);
    alone(scene, processes, MONITOR_WAIT_INTERRUPT, WATCHED_DEVICE, LONG_DELAY);
    start_stopped(scene);
}

/* There is a semaphore, which is shut. */
static void shut(struct scene *scene)
{
    stocked(scene, processes, buffers, 0, 1);
    start_stopped(scene);
}

/* The last process waits at it. */
static void waited(struct scene *scene)
{
    stocked(scene, processes, buffers, 0, 1);
    alone(scene, processes, MONITOR_LOWER, SHUT, 0);
    start_stopped(scene);
}

static void send(struct scene *scene) { call_by(monitor_trap, scene, MONITOR_SEND, SERVER, 0); }
static void wait_answer(struct scene *scene) { call_by(monitor_trap, scene, MONITOR_WAIT_ANSWER, 1, 0); }
static void wait_event(struct scene *scene) { call_by(monitor_trap, scene, MONITOR_WAIT_EVENT, 0, 0); }
static void send_answer(struct scene *scene) { call_by(monitor_trap, scene, MONITOR_SEND_ANSWER, asked_buffer, 0); }
static void wait_interrupt(struct scene *scene) { call_by(monitor_trap, scene, MONITOR_WAIT_INTERRUPT, FREE_DEVICE, 9); }
static void start(struct scene *scene) { call_by(monitor_trap, scene, MONITOR_START, processes, 0); }
static void stop(struct scene *scene) { call_by(monitor_trap, scene, MONITOR_STOP, processes, 0); }
static void clean(struct scene *scene) { call_by(monitor_trap, scene, MONITOR_CLEAN, CLIENT, 0); }
static void tick(struct scene *scene) { call_by(monitor_trap, scene, MONITOR_TICK, 0, 0); }
static void interrupt(struct scene *scene) { call_by(monitor_trap, scene, MONITOR_INTERRUPT, WATCHED_DEVICE, 0); }
static void list(struct scene *scene) { call_by(monitor_trap, scene, MONITOR_LIST, CLIENT, 0); }
static void lower(struct scene *scene) { call_by(monitor_trap, scene, MONITOR_LOWER, SHUT, 0); }
static void raise(struct scene *scene) { call_by(monitor_trap, scene, MONITOR_RAISE, SHUT, 0); }

/* A table for the round trip. */
static void idle_server(struct scene *scene) { all_run(scene, processes, buffers); }

/* The cases, and how many processes and buffers each wants at the least. */
static const struct sized_case {
    struct bench_case one;
    unsigned processes, buffers;
} cases[] = {
    {{"01 send", one_free, send}, 2, 2},
    {{"02 wait answer", running, wait_answer}, 2, 2},
    {{"03 wait event", running, wait_event}, 2, 2},
    {{"04 send answer", asked, send_answer}, 2, 2},
    {{"05 wait interrupt", running, wait_interrupt}, 1, 0},
    {{"06 start", one_stopped, start}, 1, 0},
    {{"07 stop", running, stop}, 1, 0},
    {{"08 clean", running, clean}, 2, 0},
    {{"09 tick", running, tick}, 1, 0},
    {{"0A interrupt", watched, interrupt}, 1, 0},
    {{"0B list", running, list}, 1, 0},
    {{"0C lower", shut, lower}, 1, 0},
    {{"0D raise", waited, raise}, 2, 0},
    {{"trip", idle_server, round_trip}, 4, 1},
};

int main(int arguments, char **argument)
{
    static struct scene scene;
    processes = arguments == 3 ? (unsigned)strtoul(argument[1], NULL, 10) : 0;
    buffers = arguments == 3 ? (unsigned)strtoul(argument[2], NULL, 10) : 0;
    if (processes < 1 || processes > MONITOR_PROCESSES_MOST || buffers > MONITOR_BUFFERS_MOST) {
        fprintf(stderr, "usage: %s PROCESSES BUFFERS, at most %d and %d\n", argument[0], MONITOR_PROCESSES_MOST,
                MONITOR_BUFFERS_MOST);
        return 2;
    }
    for (unsigned i = 0; i < sizeof cases / sizeof *cases; i++) {
        if (processes < cases[i].processes || buffers < cases[i].buffers) continue;
        cases[i].one.prepare(&scene);
        puts(cases[i].one.name);
        measured(&cases[i].one, &scene);
    }
    return 0;
}
