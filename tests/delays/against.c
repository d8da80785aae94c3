/*
 * against [--streams N] [--seed S]: feeds the archive's delay queue and the plain clock the same events,
 * drawn at random, and compares whom each wakes and what delay is left; between the streams it lends words
 * of all kinds, says by a check of its own whether they show a queue, and compares that too. The same seed
 * gives the same events on every machine. Exits 1 at the first difference, and 1 if something never came up.
 */
#include <stdlib.h>
#include <string.h>

#include "../monitor/draw.h"
#include "clock.h"

enum { LONGEST = 200 };

/* What came up. */
static unsigned long events, woken, equals, anew, longest, refused[13], shown, not_shown;

static void draw_event(struct event *event, unsigned processes)
{
    static const enum what leave[] = {WAKE, STOP, CLEAN};
    const unsigned draw = below(100);
    event->what = draw < 40 ? TICK : draw < 75 ? WAIT : leave[below(3)];
    event->process = chance(97) ? (uint16_t)(1 + below(processes)) : some_word();
    event->delay = chance(10) ? 65535 : chance(50) ? some_delay() : (uint16_t)below(40);
}

static _Noreturn void differ(unsigned long stream, const char *what)
{
    printf("DIFFERENCE at stream %lu: %s\n", stream, what);
    exit(1);
}

static void count(const struct plain *before, const struct event *event, const struct outcome *outcome)
{
    events++;
    woken += outcome->woken;
    equals += outcome->woken > 1;
    if (event->what != WAIT || event->process < 1 || event->process > before->processes) return;
    anew += before->left[event->process] > 0;
    longest += event->delay == 65535;
}

/* The number that a call on a queue of so many processes gets. */
static unsigned expected_number(const struct event *event, unsigned processes, size_t room_words)
{
    if (event->what == TICK) return room_words < processes ? DELAYS_ROOM_TOO_SHORT : DELAYS_DONE;
    return event->process < 1 || event->process > processes ? DELAYS_NO_SUCH_PROCESS : DELAYS_DONE;
}

/* One event on both clocks, which agree before it. */
static void feed(unsigned long stream, const struct queue *queue, struct plain *clock)
{
    struct event event;
    struct outcome ours, theirs;
    uint16_t before[WORDS_MOST];
    const unsigned processes = clock->processes;
    const struct plain was = *clock;
    draw_event(&event, processes);
    const size_t room = chance(95) ? processes + below(3) : below(processes);
    memcpy(before, queue->word, queue->words * sizeof before[0]);
    const unsigned number = queue_feed(queue, &event, room, &ours);
    if (number != expected_number(&event, processes, room)) differ(stream, "the number");
    refused[number]++;
    if (number != DELAYS_DONE && (memcmp(before, queue->word, queue->words * sizeof before[0]) != 0 || ours.woken != 0))
        differ(stream, "a refused call changed something");
    for (size_t i = DELAYS_WORDS(processes); i < queue->words; i++)
        if (queue->word[i] != before[i]) differ(stream, "a word beyond");
    if (outside_written()) differ(stream, "something was written outside");
    if (number != DELAYS_DONE) return;
    plain_feed(clock, &event, &theirs);
    count(&was, &event, &theirs);
    if (!same_outcome(processes, &ours, &theirs)) differ(stream, "whom it woke, or a delay left");
    if (!delays_shown(queue->word, queue->words)) differ(stream, "the words show no queue any more");
}

/* Whether words show a queue, with the delays left then, by another way: the list is gathered first. */
static bool shows(const uint16_t *word, size_t words, struct plain *clock)
{
    uint64_t met = 0, time = 0;
    unsigned before = 0;
    memset(clock, 0, sizeof *clock);
    if (words < 2 || word[1] < 1 || word[1] > MOST || words < DELAYS_WORDS((size_t)word[1])) return false;
    clock->processes = word[1];
    for (unsigned p = word[0]; p >= 1 && p <= word[1]; before = p, p = word[2 * p]) {
        const unsigned later = word[2 * p + 1];
        if (met >> p & 1) return false;
        met |= (uint64_t)1 << p;
        time += later;
        if (time == 0 || time > 65535 || (later == 0 && p < before)) return false;
        clock->left[p] = (uint16_t)time;
    }
    return true;
}

/* Words of some kind: made and fed, with some of them changed, or any at all. */
static size_t draw_words(uint16_t *word)
{
    const unsigned processes = 1 + below(chance(50) ? 4 : MOST);
    size_t words = DELAYS_WORDS(processes) + below(3);
    for (size_t i = 0; i < words; i++) word[i] = chance(70) ? (uint16_t)below(processes + 2) : some_word();
    word[1] = chance(95) ? (uint16_t)processes : some_word();
    if (chance(10)) words = below((unsigned)words);
    if (chance(50) && delays_make(word, words, (uint16_t)processes) == DELAYS_DONE) {
        for (unsigned i = below(40); i > 0; i--)
            delays_wait(word, words, (uint16_t)(1 + below(processes)), (uint16_t)(1 + below(9)));
        for (unsigned i = below(3); i > 0; i--) word[below((unsigned)words)] = (uint16_t)below(processes + 2);
    }
    return words;
}

/* Lends words of some kind; gives the delays that they show, or says that they show none. */
static bool draw_queue(unsigned long stream, struct queue *queue, struct plain *clock)
{
    uint16_t word[WORDS_MOST];
    const size_t words = draw_words(word);
    *queue = lend_queue(word, words);
    const bool expected = shows(word, words, clock);
    if (delays_shown(queue->word, words) != expected) differ(stream, "whether words show a queue");
    (*(expected ? &shown : &not_shown))++;
    return expected;
}

/* Calls on words that show none: nothing outside is touched, and a refused one changes nothing. */
static void try_any(unsigned long stream, const struct queue *queue)
{
    struct event event;
    struct outcome outcome;
    uint16_t before[WORDS_MOST];
    draw_event(&event, MOST);
    memcpy(before, queue->word, queue->words * sizeof before[0]);
    const unsigned number = queue_feed(queue, &event, MOST, &outcome);
    if (number > 12) differ(stream, "a number that there isn't");
    refused[number]++;
    if (outside_written()) differ(stream, "something was written outside");
    if (number != DELAYS_DONE && memcmp(before, queue->word, queue->words * sizeof before[0]) != 0)
        differ(stream, "a refused call changed something");
}

/* Makes a queue, mostly of a good number; a refused make changes nothing. */
static bool make(unsigned long stream, struct queue *queue, struct plain *clock)
{
    uint16_t word[WORDS_MOST];
    const unsigned processes = chance(95) ? 1 + below(MOST) : some_word();
    const size_t words = chance(95) ? WORDS_MOST : below(WORDS_MOST);
    for (size_t i = 0; i < words; i++) word[i] = some_word();
    *queue = lend_queue(word, words);
    *clock = (struct plain){.processes = processes};
    const unsigned number = delays_make(queue->word, words, (uint16_t)processes);
    const unsigned expected = processes < 1 || processes > MOST ? DELAYS_WRONG_NUMBER
                              : words < DELAYS_WORDS(processes) ? DELAYS_WORDS_TOO_FEW
                                                                : DELAYS_DONE;
    if (number != expected) differ(stream, "the number of a make");
    refused[number]++;
    if (number == DELAYS_DONE) return true;
    if (memcmp(word, queue->word, words * sizeof word[0]) != 0) differ(stream, "a refused make changed something");
    return false;
}

static unsigned long number_of(const char *text)
{
    char *end;
    unsigned long number = strtoul(text, &end, 10);
    if (*text != '\0' && *end == '\0') return number;
    fprintf(stderr, "against: '%s' is no number\n", text);
    exit(2);
}

int main(int arguments, char **argument)
{
    struct queue queue;
    struct plain clock;
    unsigned long streams = 5000, seed = 1;
    for (int i = 1; i + 1 < arguments; i += 2) {
        if (strcmp(argument[i], "--streams") == 0) streams = number_of(argument[i + 1]);
        if (strcmp(argument[i], "--seed") == 0) seed = number_of(argument[i + 1]);
    }
    draw_from(seed);
    for (unsigned long i = 1; i <= streams; i++) {
        if (make(i, &queue, &clock))
            for (unsigned n = below(LONGEST); n > 0; n--) feed(i, &queue, &clock);
        if (draw_queue(i, &queue, &clock))
            for (unsigned n = below(LONGEST); n > 0; n--) feed(i, &queue, &clock);
        else
            for (unsigned n = 0; n < 5; n++) try_any(i, &queue);
    }
    printf("%lu events alike: %lu woken, %lu ticks that woke several, %lu waits anew, %lu delays of 65,535; words that "
           "show a queue %lu, that show none %lu; refused with 1 %lu, 4 %lu, 10 %lu, 11 %lu, 12 %lu.\n",
           events, woken, equals, anew, longest, shown, not_shown, refused[1], refused[4], refused[10], refused[11],
           refused[12]);
    const unsigned long never[] = {events,     woken,      equals,      anew,        longest,    shown,
                                   not_shown,  refused[1], refused[4],  refused[10], refused[11], refused[12]};
    for (unsigned i = 0; i < sizeof never / sizeof never[0]; i++) {
        if (never[i] != 0) continue;
        puts("Something never came up, so it was not compared.");
        return 1;
    }
    return 0;
}
