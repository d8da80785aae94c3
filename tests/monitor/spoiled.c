/*
 * spoiled: one table with long queues, spoiled in each way in turn, and asked of what spoiled.h says: each word
 * with values that can matter there, and a stranger put into each place of a queue, linked both ways. Drawn tables
 * seldom have a fault so far down a queue. Exits 1 at the first difference, 2 if the table can't be made, and 1 too
 * if no spoiled table was sound, or none unsound.
 */
#include "spoiled.h"

#include <stdlib.h>
#include <string.h>

/* Six processes run, of one priority each way; the seventh waits for the semaphore. The first gets
 * messages from the others and answers to its own; the second gets answers. */
enum { PROCESSES = 7, EACH = 4, BUFFERS = PROCESSES * EACH, WAITER = PROCESSES, MOST = 12 };

static struct trial trial;
static struct outcome second;
static unsigned long sound, unsound;

static uint16_t *word(size_t place) { return &trial.table.word[place]; }

/* The table as the second implementation leaves it after the call. */
static unsigned does(unsigned call, unsigned a)
{
    trial.registers = (struct monitor_registers){.call = (uint16_t)call, .a = (uint16_t)a};
    by_second(&trial, &second);
    if (second.registers.number != MONITOR_DONE) {
        fprintf(stderr, "spoiled: call %02X of %u was refused with %u\n", call, a, second.registers.number);
        exit(2);
    }
    trial.table = second.table;
    return second.registers.buffer;
}

static void lay_out(void)
{
    trial.layout = true;
    for (unsigned p = 1; p <= PROCESSES; p++) {
        uint16_t *entry = trial.list.word + MONITOR_ENTRY_WORDS * (p - 1);
        entry[0] = (uint16_t)(20 - p);
        entry[1] = EACH;
        entry[2] = (uint16_t)(('A' + p) << 8);
    }
    trial.list.words = MONITOR_ENTRY_WORDS * PROCESSES;
    trial.counters.words = 1;
    trial.table.words = MONITOR_TABLE_WORDS(PROCESSES, BUFFERS, 1);
    trial.room.words = MONITOR_LISTING_WORDS * BUFFERS;
    does(0, 0);
    trial.layout = false;
}

/* The only one that runs, p sends so many messages; the receiver answers them, if it is to. */
static void converse(unsigned p, unsigned to, unsigned count, bool answered)
{
    for (unsigned i = 0; i < count; i++) {
        does(MONITOR_START, p);
        unsigned buffer = does(MONITOR_SEND, to);
        does(MONITOR_STOP, p);
        if (!answered) continue;
        does(MONITOR_START, to);
        does(MONITOR_WAIT_EVENT, 0);
        does(MONITOR_SEND_ANSWER, buffer);
        does(MONITOR_STOP, to);
    }
}

static void prepare(void)
{
    lay_out();
    converse(1, 6, EACH, true);
    converse(2, 6, EACH, true);
    for (unsigned p = 3; p <= 5; p++) converse(p, 1, 2, false);
    does(MONITOR_START, WAITER);
    does(MONITOR_LOWER, 1);
    for (unsigned p = 1; p < WAITER; p++) does(MONITOR_START, p);
}

static void compare(const char *how, size_t place)
{
    trial.registers = (struct monitor_registers){.call = MONITOR_LIST, .a = 1};
    *(spoiled_sound(&trial, how, place) ? &sound : &unsound) += 1;
}

static void spoil_words(void)
{
    static const uint16_t others[] = {127, 128, 129, 254, 255, 256, 0x7FFF, 0x8000, 0xFFFE, 0xFFFF};
    for (size_t place = 0; place < trial.table.words; place++) {
        uint16_t kept = *word(place);
        for (unsigned value = 0; value <= BUFFERS + 2; value++) {
            *word(place) = (uint16_t)value;
            compare("word", place);
        }
        for (size_t i = 0; i < sizeof others / sizeof others[0]; i++) {
            *word(place) = others[i];
            compare("word", place);
        }
        *word(place) = kept;
    }
}

/* Where the links of x stand, the next and behind it the previous; 0's are the head's. */
static size_t running_links(unsigned x) { return x == 0 ? MONITOR_CURRENT_PLACE : MONITOR_NEXT_RUNNING_PLACE(x); }
static size_t first_events(unsigned x)
{
    return x == 0 ? MONITOR_FIRST_EVENT_PLACE(1) : MONITOR_NEXT_EVENT_PLACE(PROCESSES, x);
}

/* A stranger is put into each place of a queue. */
static void put_in(const char *how, size_t (*links)(unsigned x), unsigned stranger)
{
    static struct run kept;
    kept = trial.table;
    unsigned before = 0;
    for (unsigned passed = 0; passed <= MOST; passed++) {
        unsigned behind = *word(links(before));
        *word(links(before)) = *word(links(behind) + 1) = (uint16_t)stranger;
        *word(links(stranger)) = (uint16_t)behind;
        *word(links(stranger) + 1) = (uint16_t)before;
        compare(how, passed);
        trial.table = kept;
        if (behind == 0) return;
        before = behind;
    }
}

/* The running queue with each of its first so many stopped behind the first, and the waiter in it. */
static void shorten_and_put_in(void)
{
    for (unsigned p = WAITER - 1; p >= 1; p--) {
        put_in("a waiter in the running queue behind", running_links, WAITER);
        does(MONITOR_STOP, p);
    }
    put_in("a waiter in the empty running queue behind", running_links, WAITER);
}

int main(void)
{
    prepare();
    spoil_words();
    for (unsigned b = 1; b <= BUFFERS; b++) put_in("a buffer in an event queue behind", first_events, b);
    shorten_and_put_in();
    printf("%lu tables spoiled, %lu of them sound: all agree\n", sound + unsound, sound);
    return sound == 0 || unsound == 0;
}
