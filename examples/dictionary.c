/*
 * A station whose two spellers share one dictionary: a semaphore lets one of them in at a time, and the other waits
 * its turn. A reader sends them words and hears back. Each process is a function that makes its next call whenever
 * it is current; the world around them (the dictionary's pages, an operator) acts when none is. The program ends
 * with 1 if two ever had the dictionary at once, or if the semaphore is not open again at the end.
 * With --log FILE it writes what was called and answered as a log, which ./explain --semaphores 1 tells. Assumes the
 * archive: see include/elvomike/monitor.h.
 *
 *     cc -Iinclude -o target/dictionary examples/dictionary.c target/staticlib/libtrap.a
 */
#include "elvomike/calls.h"
#include "logfile.h"

#include <stdbool.h>
#include <stdio.h>
#include <stdlib.h>

enum { READER = 1, ANN, BEN, PROCESSES = 3, BUFFERS = 4 };
enum { DICTIONARY = 1, SEMAPHORES = 1 }; /* the semaphore that guards it */
enum { PAGES = 0 };                      /* the device that turns its pages */

/* Priority, buffers and name of each process; and the counter, by which one speller may go in. */
static const uint16_t list[] = {
    3, BUFFERS, 'R' << 8 | 'E', 'A' << 8 | 'D', 0, /* READ */
    2, 0, 'A' << 8 | 'N', 'N' << 8, 0,             /* ANN */
    2, 0, 'B' << 8 | 'E', 'N' << 8, 0,             /* BEN */
};
static const uint16_t counters[SEMAPHORES] = {1};
MONITOR_TABLE(station, PROCESSES, BUFFERS, SEMAPHORES);

static const char *const name[] = {"Nobody", "The reader", "Ann", "Ben"};
static const char *const word[BUFFERS] = {"teh", "recieves", "cat", "adress"};
static const char *const right[BUFFERS] = {"the", "receives", "cat", "address"};
static unsigned sent, heard;

static _Noreturn void fail(const char *what)
{
    printf("%s\n", what);
    exit(1);
}

/* A call was made: logs it. This station makes none that is refused, and lists nothing, so that no room is logged. */
static void called(uint16_t number)
{
    log_called(&station.last, station.words);
    if (number != MONITOR_DONE) fail("A call was refused.");
}

static uint16_t semaphore_word(unsigned i)
{
    return station.words[MONITOR_SEMAPHORE_PLACE(PROCESSES, BUFFERS, DICTIONARY, i)];
}

static int counter(void)
{
    uint16_t value = semaphore_word(MONITOR_SEMAPHORE_COUNTER);
    return MONITOR_COUNTER(value);
}

/* The reader: sends a word to each speller in turn, and then hears what they make of them. */
static void reader(uint16_t me)
{
    if (sent < BUFFERS) {
        const uint16_t to = sent % 2 == 0 ? ANN : BEN, words[4] = {(uint16_t)sent, 0, 0, 0};
        printf("%s sends \"%s\" to %s.\n", name[me], word[sent++], name[to]);
        called(monitor_send(&station, to, words).number);
        return;
    }
    const struct monitor_event_wait came = monitor_wait_event(&station, 0);
    called(came.number);
    if (came.kind != MONITOR_KIND_ANSWER) return;
    heard++;
    printf("%s hears back: \"%s\".\n", name[me], right[came.words[0]]);
}

/* Who has the dictionary. */
static uint16_t holder;

static void open_dictionary(uint16_t me)
{
    if (holder != 0) fail("Two have the dictionary at once.");
    holder = me;
    printf("%s opens the dictionary and waits for the page.\n", name[me]);
    called(monitor_wait_interrupt(&station, PAGES, 0).number);
}

static void close_dictionary(uint16_t me)
{
    printf("%s finds it and closes the dictionary.\n", name[me]);
    holder = 0;
    called(monitor_raise(&station, DICTIONARY).number);
}

/* What a speller does next, the buffer it holds, and the word in it. */
enum step { LISTENS, WANTS, QUEUES, OPENS, READS, ANSWERS };
static struct speller {
    enum step step;
    uint16_t held, words[4];
} spellers[PROCESSES + 1];

static enum step listen(struct speller *speller)
{
    const struct monitor_event_wait came = monitor_wait_event(&station, 0);
    called(came.number);
    if (came.kind != MONITOR_KIND_MESSAGE) return LISTENS;
    speller->held = came.buffer;
    speller->words[0] = came.words[0];
    return WANTS;
}

/* Asks for the dictionary: the speller has it at once, or queues for it. */
static enum step want(uint16_t me)
{
    printf("%s wants to look up \"%s\".\n", name[me], word[spellers[me].words[0]]);
    const struct monitor_semaphore_wait wait = monitor_lower(&station, DICTIONARY);
    called(wait.number);
    return wait.waits ? QUEUES : OPENS;
}

/* A speller: takes a word, looks it up when the dictionary is free, and answers. */
static void speller(uint16_t me)
{
    struct speller *speller = &spellers[me];
    switch (speller->step) {
    case LISTENS: speller->step = listen(speller); break;
    case WANTS: speller->step = want(me); break;
    case QUEUES: /* woken by a raise it has it, and does not ask again; started anew it has to */
        speller->step = station.words[MONITOR_REASON_PLACE(me)] == MONITOR_WOKEN_BY_RAISE ? OPENS : WANTS;
        break;
    case OPENS:
        open_dictionary(me);
        speller->step = READS;
        break;
    case READS:
        close_dictionary(me);
        speller->step = ANSWERS;
        break;
    case ANSWERS:
        called(monitor_send_answer(&station, speller->held, speller->words).number);
        speller->step = LISTENS;
    }
}

/* What the world does when no process runs: a page is turned; but the first time somebody waits for the dictionary an
 * operator stops the waiter, which gives the semaphore its one back, and starts it again. False when there is nothing
 * left to do. */
static bool world(void)
{
    static bool stopped;
    const uint16_t waiter = semaphore_word(MONITOR_SEMAPHORE_FIRST);
    if (waiter != 0 && !stopped) {
        stopped = true;
        printf("  (%s waits for the dictionary: its counter is %d.", name[waiter], counter());
        called(monitor_stop(&station, waiter).number);
        printf(" An operator stops %s: it is %d.)\n", name[waiter], counter());
        called(monitor_start(&station, waiter).number);
        return true;
    }
    if (station.words[MONITOR_DEVICE_PLACE(PAGES)] == 0) return false;
    printf("  (The page is turned.)\n");
    called(monitor_interrupt(&station, PAGES).number);
    return true;
}

int main(int words, char **word_given)
{
    static void (*const program[])(uint16_t me) = {NULL, reader, speller, speller};
    log_begin(words, word_given);
    if (monitor_layout(list, sizeof list / 2, MONITOR_EDITION_FIRST, counters, SEMAPHORES, station.words,
                       station.count) != MONITOR_DONE)
        return 1;
    log_laid_out(list, sizeof list / 2);
    for (uint16_t p = READER; p <= BEN; p++) called(monitor_start(&station, p).number);
    for (bool happens = true; happens;) {
        const uint16_t current = station.words[MONITOR_CURRENT_PLACE];
        if (current != 0) program[current](current);
        else happens = world();
    }
    if (heard != BUFFERS || holder != 0 || counter() != 1) fail("The dictionary is not free again.");
    printf("At the end %u words are looked up, and the dictionary is free.\n", heard);
    log_end();
    return 0;
}
