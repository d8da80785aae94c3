/*
 * The port for this PC: each process is a context of the C library, with a stack of its own. Ticks and interrupts are
 * drawn from a seed, and come between two calls, so that the same seed gives the same run; or, where pc.clock asks for
 * it, a timer's signal is the tick, and comes in the middle of whatever runs. Assumes one thread, and glibc's contexts,
 * which may be left from within a signal's handler.
 */
#define _XOPEN_SOURCE 700
#include "pc.h"

#include <signal.h>
#include <sys/time.h>
#include <ucontext.h>

enum { STACK_BYTES = 64 * 1024, PAINTED = 64, PAINT = 0x5A, PRINTING_CALLS = 24, TICK_MICROSECONDS = 1000 };
enum { OUTSIDE = 0 }; /* who called station_run, in the place of a process */

struct pc pc = {.seed = 1, .tick_calls = 8};

static ucontext_t context[MONITOR_PROCESSES_MOST + 1];
static unsigned char stack[MONITOR_PROCESSES_MOST + 1][STACK_BYTES];
static unsigned on;                   /* whose stack this is */
static unsigned due;                  /* in how many calls the printer interrupts; 0 for not at all */
static volatile sig_atomic_t inside;  /* the monitor is at work, or the C library: a tick has to wait */
static volatile sig_atomic_t waiting; /* a tick does */

uint32_t pc_drawn(uint32_t below) /* Marsaglia's xorshift */
{
    pc.seed ^= pc.seed << 13;
    pc.seed ^= pc.seed >> 17;
    pc.seed ^= pc.seed << 5;
    return pc.seed % below;
}

bool port_stack_kept(unsigned p)
{
    for (unsigned i = 0; i < PAINTED; i++)
        if (stack[p][i] != PAINT) return false;
    return true;
}

/* Nobody runs and nothing is to be printed: waits for the timer's signal. */
static void wait_for_signal(void)
{
    sigset_t alarm, none;
    sigemptyset(&none);
    sigemptyset(&alarm);
    sigaddset(&alarm, SIGALRM);
    sigprocmask(SIG_BLOCK, &alarm, NULL);
    while (!waiting) sigsuspend(&none);
    sigprocmask(SIG_UNBLOCK, &alarm, NULL);
}

static void tick(void) { waiting = 0, station_tick(); }

/* What the world does behind a call; and as long as nobody runs, the printer first. */
static void world(void)
{
    if (due != 0 && --due == 0) station_interrupt(PORT_PRINTER);
    if (pc.clock ? waiting : pc_drawn(pc.tick_calls) == 0) tick();
    while (station_current() == 0) {
        if (due == 0 && pc.clock) wait_for_signal();
        due == 0 ? tick() : station_interrupt(PORT_PRINTER);
        due = 0;
    }
}

/* Leaves this stack for that of the one who goes on, and comes back when its turn comes. */
static void go_on(unsigned next)
{
    unsigned last = on;
    on = next;
    if (next != last) swapcontext(&context[last], &context[next]);
}

void port_trap(struct monitor_registers *r)
{
    inside = 1;
    station_trap(r);
    world();
    go_on(station_current());
    inside = 0;
}

static void begin(void) { inside = 0, station_begin(); }

void port_make(unsigned p)
{
    for (unsigned i = 0; i < PAINTED; i++) stack[p][i] = PAINT;
    getcontext(&context[p]);
    sigdelset(&context[p].uc_sigmask, SIGALRM);
    context[p].uc_stack.ss_sp = stack[p];
    context[p].uc_stack.ss_size = STACK_BYTES;
    context[p].uc_link = NULL;
    makecontext(&context[p], begin, 0);
}

/* The timer's signal: a tick at once, on the stack of whoever runs, or as soon as the monitor is left. */
static void alarmed(int number)
{
    (void)number;
    waiting = 1;
    if (inside) return;
    inside = 1;
    tick();
    go_on(station_current());
    inside = 0;
}

static void set_timer(suseconds_t microseconds)
{
    struct itimerval timer = {{0, microseconds}, {0, microseconds}};
    struct sigaction action = {.sa_handler = alarmed, .sa_flags = SA_RESTART};
    if (!pc.clock) return;
    sigaction(SIGALRM, &action, NULL);
    setitimer(ITIMER_REAL, &timer, NULL);
}

void port_run(void)
{
    on = OUTSIDE;
    due = 0;
    inside = 1;
    set_timer(TICK_MICROSECONDS);
    if (station_current() != 0) go_on(station_current());
    set_timer(0);
}

void port_end(void)
{
    inside = 1; /* and stays so */
    go_on(OUTSIDE);
}

void port_print(const char *line)
{
    inside = 1;
    pc_paper(line);
    due = 1 + pc_drawn(PRINTING_CALLS);
    inside = 0;
}

void port_show(const char *line)
{
    inside = 1;
    pc_screen(line);
    inside = 0;
}
