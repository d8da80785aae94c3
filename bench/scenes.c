/* The measured tables, made by calls. Assumes a monitor that does what docs/MONITOR.md says. */
#include "scenes.h"

#include <stdio.h>
#include <stdlib.h>
#include <string.h>

enum { TIMES_MOST = 4 };

void call_by(entry *made_by, struct scene *scene, unsigned number, unsigned a, unsigned b)
{
    struct monitor_registers *r = &scene->registers;
    r->call = (uint16_t)number;
    r->a = (uint16_t)a;
    r->b = (uint16_t)b;
    made_by(scene->table, scene->words, scene->room, sizeof scene->room / 2, r);
    if (r->number == MONITOR_DONE) return;
    fprintf(stderr, "call %02X of %u was refused with %u\n", number, a, (unsigned)r->number);
    exit(2);
}

void call(struct scene *scene, unsigned number, unsigned a, unsigned b) { call_by(MAKE_CALL, scene, number, a, b); }

/* How many of the buffers process p gets if they are dealt out evenly, the first of the processes first. */
static unsigned dealt(unsigned p, unsigned processes, unsigned buffers) { return (buffers + processes - p) / processes; }

void lay_list(struct scene *scene, const uint16_t *list, unsigned processes, unsigned buffers)
{
    unsigned semaphores = scene->semaphores;
    uint16_t counters[MONITOR_SEMAPHORES_MOST] = {0};
    for (unsigned s = 1; s <= semaphores; s++) counters[s - 1] = s != SHUT;
    scene->words = MONITOR_TABLE_WORDS(processes, buffers, semaphores);
    if (monitor_layout(list, MONITOR_ENTRY_WORDS * processes, scene->edition, counters, semaphores, scene->table,
                       scene->words) == MONITOR_DONE)
        return;
    fputs("a layout was refused\n", stderr);
    exit(2);
}

/* Lays out a table whose buffers are dealt out, and so many more are the client's. */
static void lay_out(struct scene *scene, unsigned processes, unsigned buffers, unsigned more)
{
    uint16_t list[MONITOR_ENTRY_WORDS * MONITOR_PROCESSES_MOST] = {0};
    for (unsigned p = 1; p <= processes; p++) {
        uint16_t *entry = list + MONITOR_ENTRY_WORDS * (p - 1);
        entry[0] = (uint16_t)(p <= SERVER ? 20 - p : 1 + p % 8);
        entry[1] = (uint16_t)(dealt(p, processes, buffers) + (p == CLIENT ? more : 0));
        entry[2] = (uint16_t)(('A' + p / 10) << 8 | ('0' + p % 10));
    }
    lay_list(scene, list, processes, buffers + more);
}

void alone(struct scene *scene, unsigned p, unsigned number, unsigned a, unsigned b)
{
    call(scene, MONITOR_START, p, 0);
    call(scene, number, a, b);
}

unsigned send_alone(struct scene *scene, unsigned from, unsigned to)
{
    alone(scene, from, MONITOR_SEND, to, 0);
    unsigned buffer = scene->registers.buffer;
    call(scene, MONITOR_STOP, from, 0);
    return buffer;
}

/* Process p sends so many messages, to different processes behind the server. */
static void send_round(struct scene *scene, unsigned p, unsigned count, unsigned processes)
{
    unsigned to = p;
    for (; count > 0; count--) {
        do to = to < SERVER + 1 || to == processes ? SERVER + 1 : to + 1;
        while (to == p);
        send_alone(scene, p, to);
    }
}

void all_run(struct scene *scene, unsigned processes, unsigned buffers)
{
    lay_out(scene, processes, buffers, 0);
    for (unsigned p = 1; p <= processes; p++)
        send_round(scene, p, dealt(p, processes, buffers) - (p == CLIENT), processes);
    for (unsigned p = 1; p <= processes; p++) call(scene, MONITOR_START, p, 0);
}

void small(struct scene *scene) { all_run(scene, 4, 8); }

void full(struct scene *scene) { all_run(scene, 32, 128); }

void round_trip(struct scene *scene)
{
    call(scene, MONITOR_SEND, SERVER, 0);
    unsigned sent = scene->registers.buffer;
    call(scene, MONITOR_WAIT_ANSWER, sent, 0);
    call(scene, MONITOR_WAIT_EVENT, 0, 0);
    call(scene, MONITOR_SEND_ANSWER, sent, 0);
    call(scene, MONITOR_WAIT_ANSWER, sent, 0);
}

void busy(struct scene *scene)
{
    lay_out(scene, 32, 128, 0);
    unsigned asked = send_alone(scene, ASKER, CLIENT);
    for (unsigned p = 1; p <= 32; p++)
        send_round(scene, p, p == CLIENT || p == ASKER ? 3 : 4, 32);
    alone(scene, CLIENT, MONITOR_WAIT_EVENT, 0, 0);
    call(scene, MONITOR_STOP, CLIENT, 0);
    alone(scene, ASKER, MONITOR_WAIT_ANSWER, asked, 0);
    alone(scene, WATCHER, MONITOR_WAIT_INTERRUPT, WATCHED_DEVICE, LONG_DELAY);
    for (unsigned p = 1; p < SLEEPER; p++)
        if (p != ASKER) call(scene, MONITOR_START, p, 0);
}

void sender(struct scene *scene, unsigned p, unsigned free)
{
    lay_out(scene, 32, 128, 0);
    for (unsigned q = 1; q <= 32; q++) send_round(scene, q, q == p ? 4 - free : 4, 32);
    call(scene, MONITOR_START, p, 0);
}

void waiting(struct scene *scene, unsigned count, unsigned first_delay, unsigned delay)
{
    lay_out(scene, 32, 128, 0);
    for (unsigned p = 1; p <= 32; p++) send_round(scene, p, 4, 32);
    for (unsigned p = 1; p <= count; p++) {
        call(scene, MONITOR_START, p, 0);
        do call(scene, MONITOR_WAIT_EVENT, p == 1 ? first_delay : delay, 0);
        while (scene->registers.kind == MONITOR_KIND_MESSAGE);
    }
}

void guarded(struct scene *scene, unsigned waiters)
{
    scene->semaphores = MONITOR_SEMAPHORES_MOST;
    lay_out(scene, 32, 128, 0);
    for (unsigned p = 1; p <= 32; p++) send_round(scene, p, p == CLIENT ? 3 : 4, 32);
    for (unsigned p = 33 - waiters; p <= 32; p++) alone(scene, p, MONITOR_LOWER, SHUT, 0);
    for (unsigned p = 1; p <= 32 - waiters; p++) call(scene, MONITOR_START, p, 0);
}

void delayed(struct scene *scene) { waiting(scene, 32, 1, 1); }

void talkative(struct scene *scene)
{
    lay_out(scene, 32, 96, 32);
    send_round(scene, CLIENT, 33, 32);
    for (unsigned p = SERVER; p <= 32; p++) {
        send_alone(scene, p, CLIENT);
        send_round(scene, p, 2, 32);
    }
    for (unsigned p = 1; p <= 32; p++) call(scene, MONITOR_START, p, 0);
}

void owning(struct scene *scene)
{
    lay_out(scene, 32, 0, 128);
    send_round(scene, CLIENT, 128, 32);
    for (unsigned p = 1; p <= 32; p++) call(scene, MONITOR_START, p, 0);
}

void waiting_for(struct scene *scene, unsigned (*holder)(unsigned p))
{
    lay_out(scene, 32, 128, 0);
    for (unsigned p = 1; p <= 32; p++) send_round(scene, p, holder(p) == 0 ? 4 : 3, 32);
    for (unsigned p = 1; p <= 32; p++) {
        if (holder(p) == 0) continue;
        alone(scene, p, MONITOR_SEND, holder(p), 0);
        call(scene, MONITOR_WAIT_ANSWER, scene->registers.buffer, 0);
    }
    for (unsigned p = 1; p <= 32; p++)
        if (holder(p) == 0) call(scene, MONITOR_START, p, 0);
}

void stocked(struct scene *scene, unsigned processes, unsigned buffers, unsigned free, unsigned semaphores)
{
    scene->semaphores = semaphores;
    lay_out(scene, processes, buffers, 0);
    if (processes == 1) return;
    for (unsigned p = 1; p <= processes; p++) {
        unsigned to = p, count = dealt(p, processes, buffers) - (p == CLIENT ? free : 0);
        for (; count > 0; count--) {
            do to = to == 1 ? processes : to - 1;
            while (to == p);
            send_alone(scene, p, to);
        }
    }
}

void start_stopped(struct scene *scene)
{
    for (unsigned p = 1; p <= scene->table[MONITOR_PROCESSES_PLACE]; p++)
        if (scene->table[MONITOR_STATE_PLACE(p)] == MONITOR_STATE_STOPPED) call(scene, MONITOR_START, p, 0);
}

void measured(const struct bench_case *the_case, struct scene *scene)
{
    the_case->once(scene);
}

/* Does the case so many times; what is prepared and copied is the same for every number. */
static void run_case(const struct bench_case *the_case, unsigned times)
{
    static struct scene prepared, scene;
    the_case->prepare(&prepared);
    for (unsigned i = 0; i < TIMES_MOST; i++) {
        memcpy(&scene, &prepared, sizeof scene);
        if (i < times) the_case->once(&scene);
    }
}

int run_cases(const struct bench_case *cases, unsigned count, int arguments, char **argument)
{
    if (arguments == 1) {
        for (unsigned i = 0; i < count; i++) puts(cases[i].name);
        return 0;
    }
    unsigned long place = strtoul(argument[1], NULL, 10);
    unsigned long times = arguments == 3 ? strtoul(argument[2], NULL, 10) : TIMES_MOST + 1;
    if (place < 1 || place > count || times > TIMES_MOST) {
        fprintf(stderr, "usage: %s [CASE TIMES], TIMES at most %d\n", argument[0], TIMES_MOST);
        return 2;
    }
    run_case(&cases[place - 1], (unsigned)times);
    return 0;
}
