/* What a run of trials met of the two editions. Assumes outcomes of the second implementation. */
#include "editions.h"

#include "second.h"

enum {
    LAID_FIRST,
    LAID_SECOND,
    LAID_OTHER,
    LOST,
    KEPT,
    KEPT_BEFORE,
    GIVEN,
    GIVEN_DELAY,
    GIVEN_REASON,
    TAKEN,
    STOPPED,
    CLEANED,
    FIRST_UNSOUND,
    OTHER_UNSOUND,
    MET
};

static const char *const what[MET] = {
    [LAID_FIRST] = "laid out: in edition 0",
    [LAID_SECOND] = ", in edition 1",
    [LAID_OTHER] = ", refused for the edition alone",
    [LOST] = "\ninterrupts without a waiter: lost in edition 0",
    [KEPT] = ", kept in edition 1",
    [KEPT_BEFORE] = ", one kept before",
    [GIVEN] = "\nkept interrupts: given by 05 without a delay",
    [GIVEN_DELAY] = ", with one",
    [GIVEN_REASON] = ", to a caller that had a reason",
    [TAKEN] = ", beside a 05 refused with 9",
    [STOPPED] = ", beside a stop",
    [CLEANED] = ", beside a clean",
    [FIRST_UNSOUND] = "\nnot sound: for a kept interrupt in edition 0 alone",
    [OTHER_UNSOUND] = ", for another edition alone",
};
static unsigned long met[MET];

static void note_layout(const struct trial *trial, unsigned number)
{
    static uint16_t table[TABLE_MOST];
    if (number == MONITOR_DONE) met[trial->edition == 0 ? LAID_FIRST : LAID_SECOND]++;
    if (trial->edition > 1)
        met[LAID_OTHER] += second_layout(trial->list.word, trial->list.words, 0, trial->counters.word,
                                         trial->counters.words, table, TABLE_MOST) == 0;
}

/* Whether an unsound table were sound in edition 1. */
static void note_unsound(const struct run *table)
{
    static struct run copy;
    copy = *table;
    if (copy.words <= HEADER_EDITION || copy.word[HEADER_EDITION] == 1) return;
    copy.word[HEADER_EDITION] = 1;
    if (second_sound(copy.word, copy.words)) met[table->word[HEADER_EDITION] == 0 ? FIRST_UNSOUND : OTHER_UNSOUND]++;
}

static bool any_kept(const uint16_t *t)
{
    for (unsigned d = 0; d < MONITOR_DEVICES; d++)
        if (DEVICE(t, d) == MONITOR_KEPT) return true;
    return false;
}

static void note_given(const uint16_t *t, const struct monitor_registers *r)
{
    met[r->b == 0 ? GIVEN : GIVEN_DELAY]++;
    met[GIVEN_REASON] += PROCESS(t, t[HEADER_FIRST], PROCESS_REASON) != MONITOR_NO_REASON;
}

/* A call on a sound table. */
static void note_call(const uint16_t *t, const struct monitor_registers *r)
{
    bool done = r->number == MONITOR_DONE;
    if (r->call == MONITOR_WAIT_INTERRUPT && r->number == MONITOR_DEVICE_TAKEN) met[TAKEN] += any_kept(t);
    if (done && r->call == MONITOR_WAIT_INTERRUPT && r->kind == MONITOR_KIND_KEPT) note_given(t, r);
    if (done && r->call == MONITOR_INTERRUPT && r->kind == 0)
        met[t[HEADER_EDITION] == 0 ? LOST : DEVICE(t, r->a) == 0 ? KEPT : KEPT_BEFORE]++;
    if (done && r->call == MONITOR_STOP) met[STOPPED] += any_kept(t);
    if (done && r->call == MONITOR_CLEAN) met[CLEANED] += any_kept(t);
}

void note_editions(const struct trial *trial, const struct outcome *outcome)
{
    if (trial->layout) note_layout(trial, outcome->registers.number);
    else if (outcome->registers.number == MONITOR_TABLE_NOT_SOUND) note_unsound(&trial->table);
    else if (outcome->registers.number != MONITOR_NO_SUCH_CALL) note_call(trial->table.word, &outcome->registers);
}

bool editions_told(void)
{
    bool all = true;
    for (unsigned i = 0; i < MET; i++) {
        printf("%s %lu", what[i], met[i]);
        all = all && met[i] != 0;
    }
    putchar('\n');
    return all;
}
