/*
 * Sound tables in every state, and tables with something wrong. Assumes tables laid out from a list,
 * for 'spoil' a sound one.
 */
#include <string.h>

#include "draw.h"
#include "make.h"
#include "second.h"
#include "second_moves.h"

/* Every process gets a state, most of them the same at times. States 1 and 5 come when all other waits are
 * settled; until then such a process stays stopped. */
static void choose_states(uint16_t *t, bool *runs, bool *lowers)
{
    unsigned states = t[HEADER_SEMAPHORES] == 0 ? 5 : 6, usual = below(states), agree = chance(50) ? 0 : 80;
    for (unsigned p = 1; p <= t[HEADER_P]; p++) {
        unsigned state = chance(agree) ? usual : below(states), device = below(MONITOR_DEVICES);
        runs[p] = state == MONITOR_STATE_RUNNING;
        lowers[p] = state == MONITOR_STATE_WAITS_SEMAPHORE;
        if (state == MONITOR_STATE_WAITS_INTERRUPT && DEVICE(t, device) != 0) state = MONITOR_STATE_STOPPED;
        if (state == MONITOR_STATE_WAITS_INTERRUPT) {
            DEVICE(t, device) = (uint16_t)p;
            PROCESS(t, p, PROCESS_DEVICE) = (uint16_t)(device + 1);
        }
        if (state == MONITOR_STATE_WAITS_INTERRUPT || state == MONITOR_STATE_WAITS_EVENT)
            PROCESS(t, p, PROCESS_DELAY) = some_delay();
        if (!runs[p] && !lowers[p]) PROCESS(t, p, PROCESS_STATE) = (uint16_t)state;
    }
}

/* Buffer b is opened: any standing that the states allow. */
static void open_buffer(uint16_t *t, unsigned b)
{
    unsigned owner = BUFFER(t, b, BUFFER_OWNER), receiver = 1 + below(t[HEADER_P]);
    unsigned standing = 1 + below(4);
    if (receiver == owner) return;
    if (standing == MONITOR_QUEUED && PROCESS(t, receiver, PROCESS_STATE) == MONITOR_STATE_WAITS_EVENT)
        standing = MONITOR_HELD;
    if (standing == MONITOR_ANSWERED && PROCESS(t, owner, PROCESS_STATE) == MONITOR_STATE_WAITS_EVENT)
        standing = MONITOR_ORPHANED;
    BUFFER(t, b, BUFFER_STANDING) = (uint16_t)standing;
    BUFFER(t, b, BUFFER_RECEIVER) = (uint16_t)receiver;
    BUFFER(t, b, BUFFER_AGE) = some_age();
    for (unsigned i = 0; i < 4; i++) BUFFER(t, b, BUFFER_WORDS + i) = some_word();
    if (standing == MONITOR_QUEUED) append(t, receiver, b);
    if (standing == MONITOR_ANSWERED) append(t, owner, b);
}

/* A process that is to wait for an answer gets a buffer to wait for, or is stopped. */
static void choose_awaited(uint16_t *t, unsigned p)
{
    unsigned found = 0, choice = 0;
    for (unsigned b = 1; b <= t[HEADER_B]; b++) {
        unsigned standing = BUFFER(t, b, BUFFER_STANDING);
        if (BUFFER(t, b, BUFFER_OWNER) != p) continue;
        if (standing != MONITOR_QUEUED && standing != MONITOR_HELD) continue;
        if (below(++found) == 0) choice = b;
    }
    PROCESS(t, p, PROCESS_AWAITED) = (uint16_t)choice;
    if (choice == 0) PROCESS(t, p, PROCESS_STATE) = MONITOR_STATE_STOPPED;
}

/* p waits, last, at some semaphore; most often at one where others do. */
static void lower_somewhere(uint16_t *t, unsigned p)
{
    unsigned s = 1 + below(chance(60) ? 1 : t[HEADER_SEMAPHORES]);
    if (counter_of(t, s) > 0) SEMAPHORE(t, s, SEMAPHORE_COUNTER) = 0;
    SEMAPHORE(t, s, SEMAPHORE_COUNTER)--;
    wait_last(t, s, p);
    PROCESS(t, p, PROCESS_STATE) = MONITOR_STATE_WAITS_SEMAPHORE;
}

/* Why a process that runs was woken. */
static unsigned some_reason(void)
{
    static const unsigned reason[] = {MONITOR_NO_REASON, MONITOR_WOKEN_BY_EVENT, MONITOR_WOKEN_BY_DELAY,
                                      MONITOR_WOKEN_BY_INTERRUPT, MONITOR_WOKEN_BY_RAISE};
    return reason[below(5)];
}

/* Interrupts are kept for some of the devices that nobody waits for: none, a few, many or all. */
static void keep_interrupts(uint16_t *t)
{
    static const unsigned share[] = {0, 5, 50, 100};
    unsigned kept = share[below(4)];
    for (unsigned d = 0; d < MONITOR_DEVICES; d++)
        if (DEVICE(t, d) == 0 && chance(kept)) DEVICE(t, d) = MONITOR_KEPT;
}

void furnish(uint16_t *t)
{
    static const unsigned fill[] = {0, 30, 80, 100};
    bool runs[64] = {false}, lowers[64] = {false};
    uint16_t order[256];
    unsigned open = fill[below(4)];
    choose_states(t, runs, lowers);
    shuffled(order, t[HEADER_B]);
    for (unsigned i = 0; i < t[HEADER_B]; i++)
        if (chance(open)) open_buffer(t, order[i]);
    for (unsigned p = 1; p <= t[HEADER_P]; p++)
        if (PROCESS(t, p, PROCESS_STATE) == MONITOR_STATE_WAITS_ANSWER) choose_awaited(t, p);
    shuffled(order, t[HEADER_P]);
    for (unsigned i = 0; i < t[HEADER_P]; i++) {
        if (runs[order[i]]) wake(t, order[i], some_reason());
        if (lowers[order[i]]) lower_somewhere(t, order[i]);
    }
    if (t[HEADER_EDITION] == MONITOR_EDITION_SECOND) keep_interrupts(t);
}

/* The words that a table uses. */
static unsigned words_used(const uint16_t *t)
{
    return MONITOR_TABLE_WORDS(t[HEADER_P], t[HEADER_B], t[HEADER_SEMAPHORES]);
}

/* One word changed: to one near it, one that stands elsewhere, or any. */
static void change_word(struct run *table)
{
    unsigned used = words_used(table->word);
    if (used > table->words) used = (unsigned)table->words;
    unsigned place = chance(20) ? below(8) : below(used), other = below(used);
    uint16_t kept = table->word[place];
    switch (below(6)) {
    case 0: table->word[place]++; break;
    case 1: table->word[place]--; break;
    case 2: table->word[place] ^= (uint16_t)(1u << below(16)); break;
    case 3: table->word[place] = table->word[other]; break;
    case 4:
        table->word[place] = table->word[other];
        table->word[other] = kept;
        break;
    default: table->word[place] = some_word();
    }
}

/* Two buffers, or two processes, made a ring of their own that no queue leads to. */
static void make_ring(uint16_t *t)
{
    unsigned p = 1 + below(t[HEADER_P]), q = 1 + below(t[HEADER_P]);
    if (t[HEADER_B] != 0 && chance(50)) {
        unsigned b = 1 + below(t[HEADER_B]), c = 1 + below(t[HEADER_B]);
        BUFFER(t, b, BUFFER_NEXT) = BUFFER(t, b, BUFFER_PREVIOUS) = (uint16_t)c;
        BUFFER(t, c, BUFFER_NEXT) = BUFFER(t, c, BUFFER_PREVIOUS) = (uint16_t)b;
        BUFFER(t, b, BUFFER_STANDING) = BUFFER(t, c, BUFFER_STANDING) = MONITOR_QUEUED;
        BUFFER(t, b, BUFFER_RECEIVER) = BUFFER(t, c, BUFFER_RECEIVER) = (uint16_t)p;
    } else {
        PROCESS(t, p, PROCESS_NEXT) = PROCESS(t, p, PROCESS_PREVIOUS) = (uint16_t)q;
        PROCESS(t, q, PROCESS_NEXT) = PROCESS(t, q, PROCESS_PREVIOUS) = (uint16_t)p;
        PROCESS(t, p, PROCESS_STATE) = PROCESS(t, q, PROCESS_STATE) = MONITOR_STATE_RUNNING;
    }
}

/* A process's waits made not to fit its state. */
static void mistake_wait(uint16_t *t)
{
    unsigned p = 1 + below(t[HEADER_P]);
    switch (PROCESS(t, p, PROCESS_STATE)) {
    case MONITOR_STATE_STOPPED: PROCESS(t, p, PROCESS_STATE) = MONITOR_STATE_WAITS_EVENT; break;
    case MONITOR_STATE_WAITS_ANSWER:
        PROCESS(t, p, PROCESS_AWAITED) = (uint16_t)(1 + below(t[HEADER_B]));
        break;
    case MONITOR_STATE_WAITS_INTERRUPT:
        if (chance(50)) PROCESS(t, p, PROCESS_DEVICE) = (uint16_t)(1 + below(MONITOR_DEVICES));
        else DEVICE(t, below(MONITOR_DEVICES)) = (uint16_t)p;
        break;
    default: PROCESS(t, p, PROCESS_REASON + below(4)) = (uint16_t)(1 + below(6));
    }
}

/* A semaphore's words made not to fit: its counter, an end of its queue, its zero, how many there are; or those
 * of a process that may wait: which semaphore, or its state. */
static void mistake_semaphore(uint16_t *t)
{
    unsigned p = 1 + below(t[HEADER_P]), s = t[HEADER_SEMAPHORES] == 0 ? 0 : 1 + below(t[HEADER_SEMAPHORES]);
    unsigned kind = s == 0 ? 5 + below(3) : below(8);
    switch (kind) {
    case 0: SEMAPHORE(t, s, SEMAPHORE_COUNTER)++; break;
    case 1: SEMAPHORE(t, s, SEMAPHORE_COUNTER)--; break;
    case 2: SEMAPHORE(t, s, SEMAPHORE_COUNTER) ^= 0x8000; break;
    case 3: SEMAPHORE(t, s, SEMAPHORE_COUNTER + below(4)) = (uint16_t)below(4); break;
    case 4:
        if (PROCESS(t, p, PROCESS_SEMAPHORE) != 0) wait_no_more(t, p);
        break;
    case 5: PROCESS(t, p, PROCESS_SEMAPHORE) = (uint16_t)below(t[HEADER_SEMAPHORES] + 2u); break;
    case 6: PROCESS(t, p, PROCESS_STATE) = MONITOR_STATE_WAITS_SEMAPHORE; break;
    default: t[HEADER_SEMAPHORES] = (uint16_t)(chance(50) ? t[HEADER_SEMAPHORES] + 1u : below(20));
    }
}

/* A buffer given an age: wrong if it is free, and else nothing wrong. */
static void give_age(uint16_t *t)
{
    unsigned b = t[HEADER_B] == 0 ? 0 : 1 + below(t[HEADER_B]);
    if (b != 0) BUFFER(t, b, BUFFER_AGE) = some_age();
}

/* Another edition, or an interrupt kept for some device: wrong in the first edition, and where somebody
 * waits for the device. */
static void mistake_edition(uint16_t *t)
{
    switch (below(4)) {
    case 0: t[HEADER_EDITION] = some_word(); break;
    case 1: t[HEADER_EDITION] ^= 1; break;
    default: DEVICE(t, below(MONITOR_DEVICES)) = (uint16_t)(MONITOR_KEPT - (chance(80) ? 0 : below(4)));
    }
}

/* A record put where it doesn't belong, or taken from where it does, with its links in order. */
static void misfile(uint16_t *t)
{
    unsigned p = 1 + below(t[HEADER_P]), q = 1 + below(t[HEADER_P]);
    unsigned b = PROCESS(t, p, PROCESS_FIRST);
    bool running = PROCESS(t, p, PROCESS_STATE) == MONITOR_STATE_RUNNING;
    switch (below(6)) {
    case 0:
        if (b == 0) break;
        unlink_buffer(t, p, b);
        append(t, q, b);
        break;
    case 1:
        if (b != 0) unlink_buffer(t, p, b);
        break;
    case 2:
        if (b != 0) BUFFER(t, b, BUFFER_STANDING) = (uint16_t)below(5);
        break;
    case 3:
        if (!running) wake(t, p, 0);
        PROCESS(t, p, PROCESS_STATE) = (uint16_t)below(6);
        break;
    case 4:
        if (running) leave_running(t, p);
        break;
    default: make_ring(t);
    }
}

/* The end cut off, often by a word only. */
static void cut_short(struct run *table)
{
    unsigned used = words_used(table->word);
    table->words = chance(30) ? used - 1 : below(used);
}

/* Another table, of lists that can't be laid out. */
static void mislay(struct run *table)
{
    static struct run list, counters;
    bool bad = chance(50);
    if (bad) make_bad_list(&list);
    else make_list(&list);
    if (bad) make_counters(&counters);
    else make_bad_counters(&counters);
    make_laid_out(table, &list, &counters);
    if (table->word[HEADER_P] != 0) furnish(table->word);
}

/* Words of any kind, with sizes that may be right. */
static void scribble(struct run *table)
{
    for (unsigned i = 0; i < TABLE_MOST; i++) table->word[i] = some_word();
    table->words = below(TABLE_MOST + 1);
    if (chance(50)) table->word[HEADER_P] = (uint16_t)(1 + below(32));
    if (chance(50)) table->word[HEADER_B] = (uint16_t)below(129);
    if (chance(50)) table->word[HEADER_SEMAPHORES] = (uint16_t)below(17);
}

void spoil(struct run *table)
{
    unsigned changes = 1 + below(4), kind = below(13);
    if (kind < 5) {
        while (changes-- > 0) change_word(table);
    } else if (kind < 6) {
        misfile(table->word);
    } else if (kind < 7) {
        mistake_wait(table->word);
    } else if (kind < 8) {
        cut_short(table);
    } else if (kind < 9) {
        mislay(table);
    } else if (kind < 10) {
        give_age(table->word);
    } else if (kind < 11) {
        mistake_edition(table->word);
    } else if (kind < 12) {
        mistake_semaphore(table->word);
    } else {
        scribble(table);
    }
}
