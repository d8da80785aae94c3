/*
 * The dearest case that we know of each call, on a table of a given size: see bench/worst. All processes have one priority, so that
 * whoever enters the running queue passes all who are in it; no buffer is free but those that a case speaks of. Assumes the scenes'
 * roles, at least 4 processes, a buffer for each and a semaphore, and to be compiled with QUICK, so that tables are made in less time.
 *
 *     worst PROCESSES BUFFERS SEMAPHORES             names the cases, and makes each in 'measured', by either entry
 *     worst PROCESSES BUFFERS SEMAPHORES SEED CALLS  names so many calls drawn from a seed, and makes each in 'measured' by monitor_trap
 */
#include <stdio.h>
#include <stdlib.h>

#include "scenes.h"

enum { PRIORITY = 5, LOWER_PRIORITY = 1, CALLS = 13 };

static unsigned processes, buffers, semaphores, last, answered;
static entry *made_by;

/* Lays the table out: the client owns the buffers that the others, so many each, leave. */
static void lay_out(struct scene *scene, unsigned others_own, unsigned last_priority)
{
    uint16_t list[MONITOR_ENTRY_WORDS * MONITOR_PROCESSES_MOST] = {0};
    for (unsigned p = 1; p <= processes; p++) {
        uint16_t *of = list + MONITOR_ENTRY_WORDS * (p - 1);
        of[0] = (uint16_t)(p == last ? last_priority : PRIORITY);
        of[1] = (uint16_t)(p == CLIENT ? buffers - others_own * (processes - 1) : others_own);
        of[2] = (uint16_t)(('A' + p / 10) << 8 | ('0' + p % 10));
    }
    scene->edition = MONITOR_EDITION_SECOND;
    scene->semaphores = semaphores;
    lay_list(scene, list, processes, buffers);
}

/* The client's buffers but so many are sent, round the processes from the server to one of a number. */
static void client_sends(struct scene *scene, unsigned free, unsigned up_to)
{
    unsigned owned = scene->table[MONITOR_OWNS_PLACE(CLIENT)], to = SERVER;
    for (; owned > free; owned--, to = to < up_to ? to + 1 : SERVER) send_alone(scene, CLIENT, to);
}

/* The others send their buffers round, too, to the server or the one behind it. */
static void others_send(struct scene *scene)
{
    for (unsigned p = SERVER; p <= processes; p++)
        for (unsigned owned = scene->table[MONITOR_OWNS_PLACE(p)]; owned > 0; owned--) send_alone(scene, p, p == SERVER ? SERVER + 1 : SERVER);
}

static void others_start(struct scene *scene)
{
    call(scene, MONITOR_START, CLIENT, 0);
    start_stopped(scene);
}

/* All run and all buffers are queued. */
static void all_run_all_sent(struct scene *scene)
{
    lay_out(scene, 1, PRIORITY);
    client_sends(scene, 0, processes);
    others_send(scene);
    others_start(scene);
}

/* The last waits for an event, and one buffer of the client, its last, is free. */
static void last_waits(struct scene *scene)
{
    lay_out(scene, 1, PRIORITY);
    client_sends(scene, 1, last - 1);
    others_send(scene);
    alone(scene, last, MONITOR_WAIT_EVENT, LONG_DELAY, 0);
    others_start(scene);
}

/* The last waits for the client's answer. */
static void last_asks(struct scene *scene)
{
    lay_out(scene, 1, PRIORITY);
    client_sends(scene, 0, last - 1);
    answered = send_alone(scene, last, CLIENT);
    alone(scene, CLIENT, MONITOR_WAIT_EVENT, 0, 0);
    call(scene, MONITOR_STOP, CLIENT, 0);
    for (unsigned p = SERVER; p < last; p++) send_alone(scene, p, p == SERVER ? SERVER + 1 : SERVER);
    alone(scene, last, MONITOR_WAIT_ANSWER, answered, 0);
    others_start(scene);
}

/* The client's first message is answered, and the answer is queued. */
static void is_answered(struct scene *scene)
{
    lay_out(scene, 1, PRIORITY);
    client_sends(scene, 0, processes);
    answered = 1;
    alone(scene, SERVER, MONITOR_WAIT_EVENT, 0, 0);
    call(scene, MONITOR_SEND_ANSWER, answered, 0);
    call(scene, MONITOR_STOP, SERVER, 0);
    others_send(scene);
    others_start(scene);
}

static void last_stopped(struct scene *scene)
{
    all_run_all_sent(scene);
    call(scene, MONITOR_STOP, last, 0);
}

/* The last, of lower priority than the others, waits for a device. */
static void last_watches(struct scene *scene)
{
    lay_out(scene, 1, LOWER_PRIORITY);
    client_sends(scene, 0, processes);
    others_send(scene);
    alone(scene, last, MONITOR_WAIT_INTERRUPT, WATCHED_DEVICE, LONG_DELAY);
    others_start(scene);
}

static void one_kept(struct scene *scene)
{
    all_run_all_sent(scene);
    call(scene, MONITOR_INTERRUPT, WATCHED_DEVICE, 0);
}

/* So many of the last wait at the shut semaphore. */
static void guarded_by(struct scene *scene, unsigned waiters)
{
    lay_out(scene, 1, PRIORITY);
    client_sends(scene, 0, processes);
    others_send(scene);
    for (unsigned p = processes + 1 - waiters; p <= processes; p++) alone(scene, p, MONITOR_LOWER, SHUT, 0);
    others_start(scene);
}
static void one_waits(struct scene *scene) { guarded_by(scene, 1); }
static void others_wait(struct scene *scene) { guarded_by(scene, processes - 1); }

/* Each other process waits for the client's answer, and the client has sent all its own buffers. */
static void all_ask(struct scene *scene)
{
    lay_out(scene, 1, PRIORITY);
    client_sends(scene, 0, processes);
    for (unsigned p = SERVER; p <= processes; p++) {
        alone(scene, p, MONITOR_SEND, CLIENT, 0);
        call(scene, MONITOR_WAIT_ANSWER, scene->registers.buffer, 0);
    }
    call(scene, MONITOR_START, CLIENT, 0);
}

/* All wait for a device each, with a delay that ends, and no buffer is free. */
static void all_delayed(struct scene *scene)
{
    lay_out(scene, 1, PRIORITY);
    client_sends(scene, 0, processes);
    others_send(scene);
    for (unsigned p = 1; p <= processes; p++) alone(scene, p, MONITOR_WAIT_INTERRUPT, p, 1);
}

/* The client owns every buffer, and all are queued. */
static void client_owns_all(struct scene *scene)
{
    lay_out(scene, 0, PRIORITY);
    client_sends(scene, 0, processes);
    others_start(scene);
}

static void by(struct scene *scene, unsigned number, unsigned a, unsigned b) { call_by(made_by, scene, number, a, b); }
static void send(struct scene *scene) { by(scene, MONITOR_SEND, last, 0); }
static void wait_answer(struct scene *scene) { by(scene, MONITOR_WAIT_ANSWER, 1, 0); }
static void wait_event(struct scene *scene) { by(scene, MONITOR_WAIT_EVENT, 9, 0); }
static void send_answer(struct scene *scene) { by(scene, MONITOR_SEND_ANSWER, answered, 0); }
static void wait_interrupt(struct scene *scene) { by(scene, MONITOR_WAIT_INTERRUPT, WATCHED_DEVICE, 9); }
static void start(struct scene *scene) { by(scene, MONITOR_START, last, 0); }
static void stop(struct scene *scene) { by(scene, MONITOR_STOP, last, 0); }
static void stop_first_waiter(struct scene *scene) { by(scene, MONITOR_STOP, SERVER, 0); }
static void clean(struct scene *scene) { by(scene, MONITOR_CLEAN, CLIENT, 0); }
static void tick(struct scene *scene) { by(scene, MONITOR_TICK, 0, 0); }
static void interrupt(struct scene *scene) { by(scene, MONITOR_INTERRUPT, WATCHED_DEVICE, 0); }
static void list(struct scene *scene) { by(scene, MONITOR_LIST, CLIENT, 0); }
static void lower(struct scene *scene) { by(scene, MONITOR_LOWER, SHUT, 0); }
static void raise(struct scene *scene) { by(scene, MONITOR_RAISE, SHUT, 0); }

static const struct bench_case cases[] = {
    {"01", last_waits, send}, {"02", all_run_all_sent, wait_answer}, {"02", is_answered, wait_answer}, {"03", last_waits, wait_event},
    {"03", is_answered, wait_event}, {"04", last_asks, send_answer}, {"05", all_run_all_sent, wait_interrupt}, {"05", one_kept, wait_interrupt},
    {"06", last_stopped, start}, {"07", all_run_all_sent, stop}, {"07", others_wait, stop_first_waiter}, {"07", last_watches, stop},
    {"08", all_ask, clean}, {"08", client_owns_all, clean}, {"09", all_delayed, tick}, {"0A", last_watches, interrupt},
    {"0B", client_owns_all, list}, {"0C", others_wait, lower}, {"0D", one_waits, raise}, {"0D", others_wait, raise},
};

static uint32_t drawn;
static unsigned draw(unsigned below)
{
    drawn = drawn * 1664525u + 1013904223u;
    return (drawn >> 8) % below;
}

/* A call of any number, on the numbers that there are; a refusal is an answer too. */
static void any_call(struct scene *scene)
{
    monitor_trap(scene->table, scene->words, scene->room, sizeof scene->room / 2, &scene->registers);
}

static void search(struct scene *scene, unsigned calls)
{
    static const struct bench_case any = {"", NULL, any_call};
    lay_out(scene, 1, PRIORITY);
    while (calls-- > 0) {
        unsigned number = 1 + draw(CALLS);
        unsigned most = number == MONITOR_WAIT_ANSWER || number == MONITOR_SEND_ANSWER ? buffers : number > MONITOR_LIST ? semaphores : processes;
        scene->registers = (struct monitor_registers){.call = (uint16_t)number, .a = (uint16_t)(1 + draw(most)), .b = (uint16_t)draw(4)};
        printf("%02X\n", number);
        measured(&any, scene);
    }
}

int main(int arguments, char **argument)
{
    static struct scene scene;
    unsigned long number[5] = {0};
    for (int i = 1; i < arguments && i <= 5; i++) number[i - 1] = strtoul(argument[i], NULL, 10);
    processes = (unsigned)number[0], buffers = (unsigned)number[1], semaphores = (unsigned)number[2], last = processes;
    if ((arguments != 4 && arguments != 6) || processes < 4 || processes > MONITOR_PROCESSES_MOST || buffers < processes ||
        buffers > MONITOR_BUFFERS_MOST || semaphores < 1 || semaphores > MONITOR_SEMAPHORES_MOST) {
        fprintf(stderr, "usage: %s PROCESSES BUFFERS SEMAPHORES [SEED CALLS], 4 to %d, as many to %d, 1 to %d\n", argument[0],
                MONITOR_PROCESSES_MOST, MONITOR_BUFFERS_MOST, MONITOR_SEMAPHORES_MOST);
        return 2;
    }
    drawn = (uint32_t)number[3];
    if (arguments == 6) return search(&scene, (unsigned)number[4]), 0;
    for (unsigned quick = 0; quick < 2; quick++) {
        made_by = quick ? monitor_quick : monitor_trap;
        for (unsigned i = 0; i < sizeof cases / sizeof *cases; i++) {
            cases[i].prepare(&scene);
            printf("%s %s\n", quick ? "quick" : "trap", cases[i].name);
            measured(&cases[i], &scene);
        }
    }
    return 0;
}
