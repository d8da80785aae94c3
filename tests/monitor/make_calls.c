/* Calls drawn at random, most of them fitting the table they are for. Assumes a sound table. */
#include "draw.h"
#include "make.h"
#include "second.h"

typedef bool property(const uint16_t *t, unsigned number);

/* One of the numbers 1 to 'most' with the property, 0 if there is none. */
static unsigned one_such(const uint16_t *t, unsigned most, property *such)
{
    unsigned found = 0, choice = 0;
    for (unsigned number = 1; number <= most; number++)
        if (such(t, number) && below(++found) == 0) choice = number;
    return choice;
}

static bool is_stopped(const uint16_t *t, unsigned p)
{
    return PROCESS(t, p, PROCESS_STATE) == MONITOR_STATE_STOPPED;
}

static bool is_going(const uint16_t *t, unsigned p) { return !is_stopped(t, p); }

static bool is_own_and_open(const uint16_t *t, unsigned b)
{
    return BUFFER(t, b, BUFFER_OWNER) == t[HEADER_FIRST] &&
           BUFFER(t, b, BUFFER_STANDING) != MONITOR_FREE;
}

static bool is_own_and_free(const uint16_t *t, unsigned b)
{
    return BUFFER(t, b, BUFFER_OWNER) == t[HEADER_FIRST] &&
           BUFFER(t, b, BUFFER_STANDING) == MONITOR_FREE;
}

static bool is_answered(const uint16_t *t, unsigned b)
{
    return is_own_and_open(t, b) && BUFFER(t, b, BUFFER_STANDING) == MONITOR_ANSWERED;
}

static bool is_owed(const uint16_t *t, unsigned b)
{
    unsigned standing = BUFFER(t, b, BUFFER_STANDING);
    return BUFFER(t, b, BUFFER_RECEIVER) == t[HEADER_FIRST] &&
           (standing == MONITOR_HELD || standing == MONITOR_ORPHANED);
}

/* Devices go by their number plus 1 here. */
static bool is_kept_for(const uint16_t *t, unsigned device)
{
    return DEVICE(t, device - 1) == MONITOR_KEPT;
}

static bool is_waited_for(const uint16_t *t, unsigned device)
{
    return DEVICE(t, device - 1) != 0 && !is_kept_for(t, device);
}

static bool has_no_waiter(const uint16_t *t, unsigned device) { return !is_waited_for(t, device); }

static bool has_waiters(const uint16_t *t, unsigned s) { return SEMAPHORE(t, s, SEMAPHORE_FIRST) != 0; }

static bool is_full(const uint16_t *t, unsigned s) { return counter_of(t, s) == MONITOR_COUNTER_MOST; }

/* A record there may be: rarely 0, one too many, or any number. */
static uint16_t about(unsigned most)
{
    if (chance(90) && most > 0) return (uint16_t)(1 + below(most));
    return (uint16_t)(chance(70) ? (chance(50) ? 0 : most + 1) : some_word());
}

/* One with the property nearly always, if there is one. */
static uint16_t likely(const uint16_t *t, unsigned most, property *such)
{
    unsigned choice = chance(85) ? one_such(t, most, such) : 0;
    return choice != 0 ? (uint16_t)choice : about(most);
}

static uint16_t likely_device(const uint16_t *t, property *such)
{
    unsigned choice = chance(85) ? one_such(t, MONITOR_DEVICES, such) : 0;
    return choice != 0 ? (uint16_t)(choice - 1) : about(MONITOR_DEVICES);
}

/* The device that is waited for: with a waiter now and then, else without; with an interrupt kept for
 * it rather often. */
static uint16_t device_to_wait_for(const uint16_t *t)
{
    if (chance(10)) return likely_device(t, is_waited_for);
    return likely_device(t, chance(30) ? is_kept_for : has_no_waiter);
}

/* The device that interrupts. In the second edition it often has no waiter. */
static uint16_t device_to_interrupt(const uint16_t *t)
{
    bool kept = t[HEADER_EDITION] == MONITOR_EDITION_SECOND && chance(50);
    return likely_device(t, kept ? has_no_waiter : is_waited_for);
}

/* The semaphore that is raised: often one where somebody waits, at times one that can't be. */
static uint16_t semaphore_to_raise(const uint16_t *t)
{
    if (chance(40)) return about(t[HEADER_SEMAPHORES]);
    return likely(t, t[HEADER_SEMAPHORES], chance(90) ? has_waiters : is_full);
}

/* The first part of a call. */
static uint16_t make_part(const uint16_t *t, unsigned call)
{
    unsigned processes = t[HEADER_P], buffers = t[HEADER_B];
    switch (call) {
    case MONITOR_WAIT_ANSWER:
        return likely(t, buffers, chance(30) ? is_answered : is_own_and_open);
    case MONITOR_WAIT_EVENT: return some_delay();
    case MONITOR_SEND_ANSWER: return likely(t, buffers, is_owed);
    case MONITOR_WAIT_INTERRUPT: return device_to_wait_for(t);
    case MONITOR_START: return likely(t, processes, is_stopped);
    case MONITOR_STOP: return likely(t, processes, is_going);
    case MONITOR_TICK: return some_word();
    case MONITOR_INTERRUPT: return device_to_interrupt(t);
    case MONITOR_LOWER: return about(t[HEADER_SEMAPHORES]);
    case MONITOR_RAISE: return semaphore_to_raise(t);
    default: return about(processes);
    }
}

/* The words a listing of process a wants: those of its open buffers. */
static unsigned listing_words(const uint16_t *t, unsigned a)
{
    unsigned words = 0;
    for (unsigned b = 1; b <= t[HEADER_B]; b++)
        if (BUFFER(t, b, BUFFER_STANDING) != MONITOR_FREE &&
            (BUFFER(t, b, BUFFER_OWNER) == a || BUFFER(t, b, BUFFER_RECEIVER) == a))
            words += MONITOR_LISTING_WORDS;
    return words;
}

/* Room for a listing: none, one word too few, just enough, more, or any. */
static void make_room(const uint16_t *t, const struct monitor_registers *r, struct run *room)
{
    unsigned words = r->call == MONITOR_LIST ? listing_words(t, r->a) : below(9);
    switch (below(8)) {
    case 0: room->words = 0; break;
    case 1: room->words = words > 0 ? words - 1 : 0; break;
    case 2: room->words = words + below(9); break;
    case 3: room->words = below(words + 1); break;
    default: room->words = words;
    }
    for (size_t i = 0; i < room->words; i++) room->word[i] = some_word();
}

struct mood make_mood(void)
{
    struct mood mood;
    for (unsigned call = 0; call < CALL_NUMBERS; call++) mood.weight[call] = 2 + below(12);
    for (unsigned call = MONITOR_SEND; call <= MONITOR_SEND_ANSWER; call++)
        mood.weight[call] += 10;
    mood.weight[0] = 1;
    mood.weight[MONITOR_CLEAN] = 1 + below(3);
    mood.weight[MONITOR_STOP] = 1 + below(3);
    mood.weight[MONITOR_RAISE] += 6;
    return mood;
}

/* Whether the table has what the call is about, so that it may be accepted. */
static bool is_of_use(const uint16_t *t, unsigned call)
{
    unsigned processes = t[HEADER_P], buffers = t[HEADER_B];
    switch (call) {
    case MONITOR_SEND: return one_such(t, buffers, is_own_and_free) != 0;
    case MONITOR_WAIT_ANSWER: return one_such(t, buffers, is_own_and_open) != 0;
    case MONITOR_SEND_ANSWER: return one_such(t, buffers, is_owed) != 0;
    case MONITOR_WAIT_EVENT:
    case MONITOR_WAIT_INTERRUPT: return t[HEADER_FIRST] != 0;
    case MONITOR_START: return one_such(t, processes, is_stopped) != 0;
    case MONITOR_STOP: return one_such(t, processes, is_going) != 0;
    case MONITOR_INTERRUPT:
        return t[HEADER_EDITION] == MONITOR_EDITION_SECOND ||
               one_such(t, MONITOR_DEVICES, is_waited_for) != 0;
    case MONITOR_LOWER:
    case MONITOR_RAISE: return t[HEADER_FIRST] != 0 && t[HEADER_SEMAPHORES] != 0;
    default: return true;
    }
}

/* A call's number by its weight; 0 stands for any other. */
static unsigned weighed(const struct mood *mood)
{
    unsigned sum = 0, call = 0;
    for (unsigned i = 0; i < CALL_NUMBERS; i++) sum += mood->weight[i];
    for (unsigned left = below(sum); left >= mood->weight[call]; call++) left -= mood->weight[call];
    return call;
}

/* A call's number, mostly of one that is of use. */
static unsigned make_number(const uint16_t *t, const struct mood *mood)
{
    unsigned call = weighed(mood);
    while (!is_of_use(t, call) && chance(97)) call = weighed(mood);
    if (call != 0) return call;
    return chance(50) ? (chance(50) ? 0 : CALL_NUMBERS) : some_word();
}

void make_call(const uint16_t *t, const struct mood *mood, struct monitor_registers *registers,
               struct run *room)
{
    uint16_t *word = &registers->call;
    for (unsigned i = 0; i < sizeof *registers / sizeof *word; i++) word[i] = some_word();
    registers->call = (uint16_t)make_number(t, mood);
    registers->a = make_part(t, registers->call);
    registers->b = some_delay();
    make_room(t, registers, room);
}
