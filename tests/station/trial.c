/*
 * The blocking calls of ports/station.h, each tried by three processes, on any port; what comes of it is a line on the
 * paper, and the same lines on every port. FIRST goes before SECOND, and both before THIRD, who is the operator.
 */
#include "port.h"

enum { FIRST = 1, SECOND, THIRD, PROCESSES = 3, BUFFERS = 3, GATE = 1, NO_DEVICE = 7 };

static uint16_t table[MONITOR_TABLE_WORDS(PROCESSES, BUFFERS, 1)], room[MONITOR_LISTING_WORDS * BUFFERS];
static unsigned second_began, state_seen;

static void say(const char *what, bool well)
{
    bool came;
    port_print(well ? what : "WRONG");
    if (!well) port_print(what);
    station_wait_interrupt(PORT_PRINTER, 0, &came);
}

static unsigned state_of(unsigned p) { return table[MONITOR_STATE_PLACE(p)]; }

static void try_delays(void)
{
    struct station_event event = {9, 9, {9, 9, 9, 9}};
    bool came = true;
    uint32_t began = station_ticks();
    station_wait_event(3, &event);
    say("a wait for an event ends with its delay", event.kind == MONITOR_KIND_WAITS && station_ticks() - began >= 3 && station_ticks() - began <= 4);
    station_wait_interrupt(NO_DEVICE, 2, &came);
    say("a wait for an interrupt ends with its delay", !came);
    say("a device that isn't there is refused", station_wait_interrupt(64, 1, &came) == MONITOR_NO_SUCH_DEVICE && !came);
    port_print("an interrupt that comes early is kept");
    station_wait_event(5, &event);
    station_wait_interrupt(PORT_PRINTER, 0, &came);
    say("and given to the next who waits", came);
}

/* SECOND takes both messages, and answers the later first. */
static void try_answers(void)
{
    uint16_t one, two, three, w[4] = {1, 2, 3, 4}, r[4];
    station_send(SECOND, w, &one);
    w[0] = 2;
    station_send(SECOND, w, &two);
    say("without a free buffer nothing is sent", station_send(SECOND, w, &three) == MONITOR_NO_FREE_BUFFER);
    say("the first answer is that of the first", station_wait_answer(one, r) == MONITOR_DONE && r[0] == 101 && r[3] == 4);
    say("and the second that of the second", station_wait_answer(two, r) == MONITOR_DONE && r[0] == 102);
    say("what was collected can't be again", station_wait_answer(two, r) == MONITOR_WRONG_BUFFER);
}

/* THIRD stops and starts this process in each of its waits, and then cleans SECOND, or raises the gate. */
static void try_operator(void)
{
    struct station_event event;
    uint16_t buffer, w[4] = {0, 0, 0, 0}, r[4];
    say("a semaphore that nobody raised is waited for", station_lower(GATE) == MONITOR_DONE);
    say("also over a stop", state_seen == MONITOR_STATE_WAITS_SEMAPHORE);
    station_send(SECOND, w, &buffer);
    say("who was cleaned gives its answers back", station_wait_answer(buffer, r) == MONITOR_DONE && r[0] == STATION_WITHDRAWN);
    say("also to who was stopped meanwhile", state_seen == MONITOR_STATE_WAITS_ANSWER);
    station_wait_event(3, &event);
    say("and begins anew", second_began == 2);
}

static void first(void)
{
    try_delays();
    try_answers();
    try_operator();
    say("a program that ends is started again", state_of(SECOND) == MONITOR_STATE_STOPPED && second_began == 2);
    station_start(SECOND);
    station_lower(GATE);
    say("from its beginning", second_began == 3);
    station_end();
}

static void second(void)
{
    struct station_event one, two;
    if (++second_began == 2) return;
    if (second_began == 3) station_raise(GATE);
    station_wait_event(0, &one);
    station_wait_event(0, &two);
    one.w[0] = (uint16_t)(one.w[0] + 100);
    two.w[0] = (uint16_t)(two.w[0] + 100);
    station_answer(two.buffer, two.w);
    station_answer(one.buffer, one.w);
    for (;;) station_wait_event(0, &one);
}

static void stop_and_start(void)
{
    state_seen = state_of(FIRST);
    station_stop(FIRST);
    station_start(FIRST);
}

static void third(void)
{
    struct station_event event;
    while (state_of(FIRST) != MONITOR_STATE_WAITS_SEMAPHORE) station_wait_event(1, &event);
    stop_and_start();
    station_raise(GATE);
    while (state_of(FIRST) != MONITOR_STATE_WAITS_ANSWER) station_wait_event(1, &event);
    stop_and_start();
    station_clean(SECOND);
    station_start(SECOND);
}

static void trouble(enum station_trouble what, unsigned process) { (void)what, (void)process, port_halt("trouble"); }

int main(void)
{
    static const struct station_process process[] = {{9, 2, "FIRST", first}, {8, 0, "SEC", second}, {7, 1, "THIRD", third}};
    static const uint16_t gate[] = {0};
    static const struct station station = {process, gate, PROCESSES, 1, MONITOR_EDITION_SECOND, table, room, sizeof table / 2, sizeof room / 2,
                                           trouble};
    station_run(&station);
    return 0;
}
