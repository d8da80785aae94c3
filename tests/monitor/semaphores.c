/* What a run of trials met of the semaphores. Assumes outcomes of the second implementation. */
#include "semaphores.h"

#include "second.h"

enum {
    LAID_NONE,
    LAID_SOME,
    LAID_MOST,
    TOO_MANY,
    TOO_LARGE,
    TOO_SHORT,
    LOWERED,
    LOWERED_TO_ZERO,
    LOWERED_REASON,
    WAITS_FIRST,
    WAITS_BEHIND,
    RAISED,
    RAISED_FROM_ZERO,
    RAISED_TO_MOST,
    RAISED_REASON,
    WOKE_ONLY,
    WOKE_LONGEST,
    WOKE_LOWER,
    WOKE_EQUAL,
    WOKE_HIGHER,
    NONE_THERE,
    NUMBER_ZERO,
    ONE_TOO_MANY,
    STOPPED_ONLY,
    STOPPED_FIRST,
    STOPPED_MIDDLE,
    STOPPED_LAST,
    CLEANED,
    SENT_TO,
    ANSWERED,
    TICKED,
    WRONG_COUNTER,
    REASON_FOUR,
    MET
};

static const char *const what[MET] = {
    [LAID_NONE] = "laid out: without semaphores",
    [LAID_SOME] = ", with some",
    [LAID_MOST] = ", with 16",
    [TOO_MANY] = ", refused for their number alone",
    [TOO_LARGE] = ", for a counter alone",
    [TOO_SHORT] = ", for the words of the last alone",
    [LOWERED] = "\nlowered: above zero",
    [LOWERED_TO_ZERO] = ", to zero",
    [LOWERED_REASON] = ", by one that had a reason",
    [WAITS_FIRST] = ", waits as the first",
    [WAITS_BEHIND] = ", behind others",
    [RAISED] = "\nraised: nobody waits",
    [RAISED_FROM_ZERO] = ", from zero",
    [RAISED_TO_MOST] = ", to 32,767",
    [RAISED_REASON] = ", by one that had a reason",
    [WOKE_ONLY] = ", the only waiter wakes",
    [WOKE_LONGEST] = ", the longest of several",
    [WOKE_LOWER] = ", of a lower priority",
    [WOKE_EQUAL] = ", of an equal one",
    [WOKE_HIGHER] = ", of a higher one",
    [NONE_THERE] = "\nrefused with 19: there are none",
    [NUMBER_ZERO] = ", number 0",
    [ONE_TOO_MANY] = ", one too many",
    [STOPPED_ONLY] = "\nwaiters: the only one stopped",
    [STOPPED_FIRST] = ", the first of several",
    [STOPPED_MIDDLE] = ", one between",
    [STOPPED_LAST] = ", the last",
    [CLEANED] = ", cleaned",
    [SENT_TO] = ", sent to",
    [ANSWERED] = ", answered",
    [TICKED] = ", beside a tick",
    [WRONG_COUNTER] = "\nnot sound: for a counter alone",
    [REASON_FOUR] = ", for reason 4 alone",
};
static unsigned long met[MET];

/* Whether the layout would be done with so many counters, each at most 'most', and such a table. */
static bool done_with(const struct trial *trial, size_t counters, uint16_t most)
{
    static uint16_t table[TABLE_MOST], mended[TABLE_MOST];
    for (size_t i = 0; i < counters; i++)
        mended[i] = trial->counters.word[i] > most ? most : trial->counters.word[i];
    return second_layout(trial->list.word, trial->list.words, trial->edition, mended, counters, table,
                         trial->table.words) == MONITOR_DONE;
}

static void note_layout(const struct trial *trial, unsigned number)
{
    size_t counters = trial->counters.words;
    if (number == MONITOR_DONE) {
        met[counters == 0 ? LAID_NONE : LAID_SOME]++;
        met[LAID_MOST] += counters == MONITOR_SEMAPHORES_MOST;
    } else if (number == MONITOR_TABLE_TOO_SHORT) {
        met[TOO_SHORT] += counters != 0 && done_with(trial, counters - 1, MONITOR_COUNTER_MOST);
    } else if (counters > MONITOR_SEMAPHORES_MOST) {
        met[TOO_MANY] += done_with(trial, MONITOR_SEMAPHORES_MOST, UINT16_MAX);
    } else {
        met[TOO_LARGE] += done_with(trial, counters, MONITOR_COUNTER_MOST);
    }
}

static void note_lower(const uint16_t *t, unsigned s)
{
    int counter = counter_of(t, s);
    met[LOWERED_REASON] += PROCESS(t, t[HEADER_FIRST], PROCESS_REASON) != MONITOR_NO_REASON;
    met[counter > 1 ? LOWERED : counter == 1 ? LOWERED_TO_ZERO : counter == 0 ? WAITS_FIRST : WAITS_BEHIND]++;
}

static void note_raise(const uint16_t *t, unsigned s)
{
    int counter = counter_of(t, s);
    unsigned current = t[HEADER_FIRST], longest = SEMAPHORE(t, s, SEMAPHORE_FIRST);
    met[RAISED_REASON] += PROCESS(t, current, PROCESS_REASON) != MONITOR_NO_REASON;
    if (counter >= 0) {
        met[counter == 0 ? RAISED_FROM_ZERO : RAISED]++;
        met[RAISED_TO_MOST] += counter == MONITOR_COUNTER_MOST - 1;
        return;
    }
    int above = PROCESS(t, longest, PROCESS_PRIORITY) - PROCESS(t, current, PROCESS_PRIORITY);
    met[counter == -1 ? WOKE_ONLY : WOKE_LONGEST]++;
    met[above < 0 ? WOKE_LOWER : above == 0 ? WOKE_EQUAL : WOKE_HIGHER]++;
}

static void note_stop(const uint16_t *t, unsigned p)
{
    unsigned s = PROCESS(t, p, PROCESS_SEMAPHORE);
    if (s == 0) return;
    bool first = SEMAPHORE(t, s, SEMAPHORE_FIRST) == p, last = SEMAPHORE(t, s, SEMAPHORE_LAST) == p;
    met[first && last ? STOPPED_ONLY : first ? STOPPED_FIRST : last ? STOPPED_LAST : STOPPED_MIDDLE]++;
}

static void note_missing(const uint16_t *t, unsigned s)
{
    met[NONE_THERE] += t[HEADER_SEMAPHORES] == 0;
    met[NUMBER_ZERO] += t[HEADER_SEMAPHORES] != 0 && s == 0;
    met[ONE_TOO_MANY] += t[HEADER_SEMAPHORES] != 0 && s == t[HEADER_SEMAPHORES] + 1u;
}

static bool is_waiter(const uint16_t *t, unsigned p) { return PROCESS(t, p, PROCESS_STATE) == MONITOR_STATE_WAITS_SEMAPHORE; }

static bool any_waiter(const uint16_t *t)
{
    for (unsigned p = 1; p <= t[HEADER_P]; p++)
        if (is_waiter(t, p)) return true;
    return false;
}

/* An accepted call on a sound table. */
static void note_done(const uint16_t *t, const struct monitor_registers *r)
{
    switch (r->call) {
    case MONITOR_LOWER: note_lower(t, r->a); break;
    case MONITOR_RAISE: note_raise(t, r->a); break;
    case MONITOR_STOP: note_stop(t, r->a); break;
    case MONITOR_CLEAN: met[CLEANED] += is_waiter(t, r->a); break;
    case MONITOR_SEND: met[SENT_TO] += is_waiter(t, r->a); break;
    case MONITOR_SEND_ANSWER: met[ANSWERED] += is_waiter(t, BUFFER(t, r->a, BUFFER_OWNER)); break;
    case MONITOR_TICK: met[TICKED] += any_waiter(t); break;
    }
}

static bool long_enough(const struct run *table)
{
    const uint16_t *t = table->word;
    return table->words >= MONITOR_TABLE_WORDS(0, 0, 0) && t[HEADER_SEMAPHORES] <= MONITOR_SEMAPHORES_MOST &&
           table->words >= MONITOR_TABLE_WORDS((size_t)t[HEADER_P], (size_t)t[HEADER_B], (size_t)t[HEADER_SEMAPHORES]);
}

/* Every counter as the number of processes that name its semaphore says. */
static void count_anew(uint16_t *t)
{
    for (unsigned s = 1; s <= t[HEADER_SEMAPHORES]; s++) SEMAPHORE(t, s, SEMAPHORE_COUNTER) = 0;
    for (unsigned p = 1; p <= t[HEADER_P]; p++) {
        unsigned s = PROCESS(t, p, PROCESS_SEMAPHORE);
        if (s >= 1 && s <= t[HEADER_SEMAPHORES]) SEMAPHORE(t, s, SEMAPHORE_COUNTER)--;
    }
}

/* Whether an unsound table were sound with other counters, or with other reasons than 4. */
static void note_unsound(const struct run *table)
{
    static struct run copy;
    if (!long_enough(table)) return;
    copy = *table;
    count_anew(copy.word);
    met[WRONG_COUNTER] += second_sound(copy.word, copy.words);
    copy = *table;
    for (unsigned p = 1; p <= copy.word[HEADER_P]; p++)
        if (PROCESS(copy.word, p, PROCESS_REASON) == 4) PROCESS(copy.word, p, PROCESS_REASON) = MONITOR_WOKEN_BY_RAISE;
    met[REASON_FOUR] += second_sound(copy.word, copy.words);
}

void note_semaphores(const struct trial *trial, const struct outcome *outcome)
{
    const struct monitor_registers *r = &outcome->registers;
    if (trial->layout) note_layout(trial, r->number);
    else if (r->number == MONITOR_DONE) note_done(trial->table.word, r);
    else if (r->number == MONITOR_NO_SUCH_SEMAPHORE) note_missing(trial->table.word, r->a);
    else if (r->number == MONITOR_TABLE_NOT_SOUND) note_unsound(&trial->table);
}

bool semaphores_told(void)
{
    bool all = true;
    for (unsigned i = 0; i < MET; i++) {
        printf("%s %lu", what[i], met[i]);
        all = all && met[i] != 0;
    }
    putchar('\n');
    return all;
}
