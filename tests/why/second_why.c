/*
 * The clauses of docs/MONITOR.md, 17.6. A function asks one clause, by its number, of record r, and gives RIGHT, or the
 * place of the word that is named plus 1. Assumes nothing of the words but what the clauses before have made sure of.
 */
#include "second_why.h"

#include <stdbool.h>

#include "second.h"

enum { RIGHT = 0, CLAUSES = 48 };

static size_t unless(bool right, size_t place) { return right ? RIGHT : place + 1; }

static bool within(unsigned number, unsigned most) { return number >= 1 && number <= most; }

/* ---- size, header, fixed words and own buffers: 1 to 14 */

static size_t used(const uint16_t *t)
{
    return 72 + 16 * (size_t)t[HEADER_P] + 10 * (size_t)t[HEADER_B] + 4 * (size_t)t[HEADER_SEMAPHORES];
}

static size_t size(const uint16_t *t, size_t words, unsigned clause)
{
    switch (clause) {
    case 1: return unless(words >= 72, words);
    case 2: return unless(within(t[HEADER_P], 32), HEADER_P);
    case 3: return unless(t[HEADER_B] <= 128, HEADER_B);
    case 4: return unless(t[HEADER_SEMAPHORES] <= 16, HEADER_SEMAPHORES);
    default: return unless(words >= used(t), words);
    }
}

static bool name_before(const uint16_t *t, unsigned p)
{
    for (unsigned q = 1; q < p; q++) {
        bool same = true;
        for (unsigned i = 0; i < 3; i++) same = same && PROCESS(t, q, PROCESS_NAME + i) == PROCESS(t, p, PROCESS_NAME + i);
        if (same) return true;
    }
    return false;
}

/* How many buffers the processes before p have together. */
static unsigned owned_before(const uint16_t *t, unsigned p)
{
    unsigned owned = 0;
    while (--p >= 1) owned += PROCESS(t, p, PROCESS_OWNS);
    return owned;
}

static bool in_run(const uint16_t *t, unsigned b)
{
    unsigned owner = BUFFER(t, b, BUFFER_OWNER);
    return within(owner, t[HEADER_P]) && b > owned_before(t, owner) && b <= owned_before(t, owner) + PROCESS(t, owner, PROCESS_OWNS);
}

static size_t fixed(const uint16_t *t, unsigned clause, unsigned r)
{
    unsigned p = r;
    switch (clause) {
    case 6: return unless(t[HEADER_EDITION] <= 1, HEADER_EDITION);
    case 7: return unless(t[HEADER_ZEROS + r - 1] == 0, HEADER_ZEROS + r - 1);
    case 8: return unless(SEMAPHORE(t, r, SEMAPHORE_ZERO) == 0, semaphore_place(t[HEADER_P], t[HEADER_B], r, SEMAPHORE_ZERO));
    case 9: return unless(within(PROCESS(t, p, PROCESS_PRIORITY), 255), process_place(p, PROCESS_PRIORITY));
    case 10: return unless(second_name(&PROCESS(t, p, PROCESS_NAME)), process_place(p, PROCESS_NAME));
    case 11: return unless(!name_before(t, p), process_place(p, PROCESS_NAME));
    case 12: return unless(PROCESS(t, p, PROCESS_OWN) == (PROCESS(t, p, PROCESS_OWNS) == 0 ? 0 : owned_before(t, p) + 1), process_place(p, PROCESS_OWN));
    case 13: return unless(owned_before(t, t[HEADER_P] + 1u) == t[HEADER_B], HEADER_B);
    default: return unless(in_run(t, r), buffer_place(t[HEADER_P], r, BUFFER_OWNER));
    }
}

/* ---- queues: 15 to 20, 23 to 28, 33 to 38 */

enum kind { RUNNING, EVENTS, WAITING };
enum part { FIRST, LAST, BEFORE_FIRST, NEXT, BACK, MET };

static unsigned members(const uint16_t *t, enum kind kind) { return kind == EVENTS ? t[HEADER_B] : t[HEADER_P]; }

static unsigned queues(const uint16_t *t, enum kind kind)
{
    return kind == RUNNING ? 1 : kind == EVENTS ? t[HEADER_P] : t[HEADER_SEMAPHORES];
}

/* The place of the queue's first, with its last behind it; and of a member's next, with its previous behind it. */
static size_t ends(const uint16_t *t, enum kind kind, unsigned queue)
{
    if (kind == RUNNING) return HEADER_FIRST;
    if (kind == EVENTS) return process_place(queue, PROCESS_FIRST);
    return semaphore_place(t[HEADER_P], t[HEADER_B], queue, SEMAPHORE_FIRST);
}

static size_t links(const uint16_t *t, enum kind kind, unsigned x)
{
    return kind == EVENTS ? buffer_place(t[HEADER_P], x, BUFFER_NEXT) : process_place(x, PROCESS_NEXT);
}

/* Whether x, one of the records, is to be in that queue. */
static bool is_member(const uint16_t *t, enum kind kind, unsigned queue, unsigned x)
{
    if (kind == RUNNING) return PROCESS(t, x, PROCESS_STATE) == MONITOR_STATE_RUNNING;
    if (kind == WAITING) return PROCESS(t, x, PROCESS_STATE) == MONITOR_STATE_WAITS_SEMAPHORE && PROCESS(t, x, PROCESS_SEMAPHORE) == queue;
    return (BUFFER(t, x, BUFFER_STANDING) == MONITOR_QUEUED && BUFFER(t, x, BUFFER_RECEIVER) == queue) ||
           (BUFFER(t, x, BUFFER_STANDING) == MONITOR_ANSWERED && BUFFER(t, x, BUFFER_OWNER) == queue);
}

static bool none_or_member(const uint16_t *t, enum kind kind, unsigned queue, unsigned x)
{
    return x == 0 || (x <= members(t, kind) && is_member(t, kind, queue, x));
}

/* Follows the queue from its first and marks whom it meets. */
static bool meets(const uint16_t *t, enum kind kind, unsigned queue, unsigned x)
{
    bool met[129] = {false};
    unsigned at = t[ends(t, kind, queue)];
    while (within(at, members(t, kind)) && !met[at]) {
        met[at] = true;
        at = t[links(t, kind, at)];
    }
    return met[x];
}

static size_t whole(const uint16_t *t, enum kind kind, enum part part, unsigned queue)
{
    size_t place = ends(t, kind, queue);
    if (part == FIRST) return unless(none_or_member(t, kind, queue, t[place]), place);
    if (part == LAST) return unless(none_or_member(t, kind, queue, t[place + 1]), place + 1);
    if (!within(t[place], members(t, kind))) return RIGHT;
    return unless(t[links(t, kind, t[place]) + 1] == 0, links(t, kind, t[place]) + 1);
}

static size_t member(const uint16_t *t, enum kind kind, enum part part, unsigned queue, unsigned x)
{
    size_t place = links(t, kind, x), last = ends(t, kind, queue) + 1;
    unsigned behind = t[place];
    if (part == NEXT) return unless(none_or_member(t, kind, queue, behind), place);
    if (part == MET) return unless(meets(t, kind, queue, x), place);
    if (behind == 0) return unless(t[last] == x, last);
    if (behind > members(t, kind)) return RIGHT;
    return unless(t[links(t, kind, behind) + 1] == x, links(t, kind, behind) + 1);
}

static size_t queued(const uint16_t *t, enum kind kind, unsigned part, unsigned r)
{
    if (part <= BEFORE_FIRST) return whole(t, kind, part, r);
    for (unsigned queue = 1; queue <= queues(t, kind); queue++)
        if (is_member(t, kind, queue, r)) return member(t, kind, part, queue, r);
    return RIGHT;
}

/* The first of so many words, from a place on, that isn't zero. */
static size_t zeros(const uint16_t *t, size_t place, unsigned count)
{
    for (unsigned i = 0; i < count; i++)
        if (t[place + i] != 0) return place + i + 1;
    return RIGHT;
}

/* ---- what is beside the queues: 21 and 22, 29 to 32, 39 to 48 */

static size_t falls(const uint16_t *t, unsigned p)
{
    unsigned next = PROCESS(t, p, PROCESS_NEXT);
    if (PROCESS(t, p, PROCESS_STATE) != MONITOR_STATE_RUNNING || !within(next, t[HEADER_P])) return RIGHT;
    return unless(PROCESS(t, next, PROCESS_PRIORITY) <= PROCESS(t, p, PROCESS_PRIORITY), process_place(p, PROCESS_PRIORITY));
}

static size_t buffer(const uint16_t *t, unsigned clause, unsigned b)
{
    unsigned standing = BUFFER(t, b, BUFFER_STANDING), receiver = BUFFER(t, b, BUFFER_RECEIVER);
    size_t place = buffer_place(t[HEADER_P], b, 0), found;
    bool queued = standing == MONITOR_QUEUED || standing == MONITOR_ANSWERED;
    switch (clause) {
    case 29: return queued ? RIGHT : zeros(t, place, 2);
    case 30: return unless(standing <= MONITOR_ORPHANED, place + BUFFER_STANDING);
    case 31:
        if (standing != MONITOR_FREE) return RIGHT;
        found = zeros(t, place + BUFFER_RECEIVER, 1);
        return found != RIGHT ? found : zeros(t, place + BUFFER_AGE, 5);
    default:
        if (standing == MONITOR_FREE) return RIGHT;
        return unless(within(receiver, t[HEADER_P]) && receiver != BUFFER(t, b, BUFFER_OWNER), place + BUFFER_RECEIVER);
    }
}

static size_t counted(const uint16_t *t, unsigned s)
{
    int waiting = 0, counter = counter_of(t, s);
    for (unsigned p = 1; p <= t[HEADER_P]; p++) waiting += is_member(t, WAITING, s, p);
    return unless(counter < 0 ? -counter == waiting : waiting == 0, semaphore_place(t[HEADER_P], t[HEADER_B], s, SEMAPHORE_COUNTER));
}

static bool awaits(const uint16_t *t, unsigned p, unsigned b)
{
    if (!within(b, t[HEADER_B]) || BUFFER(t, b, BUFFER_OWNER) != p) return false;
    return BUFFER(t, b, BUFFER_STANDING) == MONITOR_QUEUED || BUFFER(t, b, BUFFER_STANDING) == MONITOR_HELD;
}

/* Word i of p is what it is to be in that state, and 0 in any other. */
static size_t only_in(const uint16_t *t, unsigned p, unsigned i, unsigned state, bool right)
{
    return unless(PROCESS(t, p, PROCESS_STATE) == state ? right : PROCESS(t, p, i) == 0, process_place(p, i));
}

static size_t process(const uint16_t *t, unsigned clause, unsigned p)
{
    unsigned state = PROCESS(t, p, PROCESS_STATE), reason = PROCESS(t, p, PROCESS_REASON), device = PROCESS(t, p, PROCESS_DEVICE);
    switch (clause) {
    case 22: return state == MONITOR_STATE_RUNNING || state == MONITOR_STATE_WAITS_SEMAPHORE ? RIGHT : zeros(t, process_place(p, PROCESS_NEXT), 2);
    case 40: return unless(state <= 5, process_place(p, PROCESS_STATE));
    case 41: return unless(reason <= 3 || reason == 5, process_place(p, PROCESS_REASON));
    case 42: return only_in(t, p, PROCESS_REASON, MONITOR_STATE_RUNNING, true);
    case 43: return only_in(t, p, PROCESS_SEMAPHORE, MONITOR_STATE_WAITS_SEMAPHORE, within(PROCESS(t, p, PROCESS_SEMAPHORE), t[HEADER_SEMAPHORES]));
    case 44: return state == MONITOR_STATE_WAITS_EVENT ? zeros(t, process_place(p, PROCESS_FIRST), 1) : RIGHT;
    case 45: return only_in(t, p, PROCESS_AWAITED, MONITOR_STATE_WAITS_ANSWER, awaits(t, p, PROCESS(t, p, PROCESS_AWAITED)));
    case 46: return only_in(t, p, PROCESS_DEVICE, MONITOR_STATE_WAITS_INTERRUPT, within(device, 64) && DEVICE(t, device - 1) == p);
    default: return state == MONITOR_STATE_WAITS_EVENT ? RIGHT : only_in(t, p, PROCESS_DELAY, MONITOR_STATE_WAITS_INTERRUPT, true);
    }
}

static size_t device(const uint16_t *t, unsigned r)
{
    unsigned word = DEVICE(t, r - 1);
    if (word == 0 || (word == MONITOR_KEPT && t[HEADER_EDITION] == MONITOR_EDITION_SECOND)) return RIGHT;
    bool waits = within(word, t[HEADER_P]) && PROCESS(t, word, PROCESS_STATE) == MONITOR_STATE_WAITS_INTERRUPT;
    return unless(waits && PROCESS(t, word, PROCESS_DEVICE) == r, HEADER_DEVICES + r - 1);
}

/* ---- the clauses in their order */

static unsigned records(const uint16_t *t, unsigned clause)
{
    if (clause <= 6 || clause == 13 || (clause >= 15 && clause <= 17)) return 1;
    if (clause == 7) return 2;
    if (clause == 8 || (clause >= 33 && clause <= 35) || clause == 39) return t[HEADER_SEMAPHORES];
    if (clause == 14 || (clause >= 26 && clause <= 32)) return t[HEADER_B];
    return clause == 48 ? 64 : t[HEADER_P];
}

static size_t asked(const uint16_t *t, size_t words, unsigned clause, unsigned r)
{
    if (clause <= 5) return size(t, words, clause);
    if (clause <= 14) return fixed(t, clause, r);
    if (clause <= 20) return queued(t, RUNNING, clause - 15, r);
    if (clause == 21) return falls(t, r);
    if (clause >= 23 && clause <= 28) return queued(t, EVENTS, clause - 23, r);
    if (clause >= 29 && clause <= 32) return buffer(t, clause, r);
    if (clause >= 33 && clause <= 38) return queued(t, WAITING, clause - 33, r);
    if (clause == 39) return counted(t, r);
    return clause == 48 ? device(t, r) : process(t, clause, r);
}

struct monitor_fault second_why(const uint16_t *table, size_t words)
{
    for (unsigned clause = 1; clause <= CLAUSES; clause++)
        for (unsigned r = 1; r <= records(table, clause); r++) {
            size_t found = asked(table, words, clause, r);
            if (found != RIGHT) return (struct monitor_fault){(uint16_t)clause, (uint16_t)r, (uint16_t)(found - 1)};
        }
    return (struct monitor_fault){0, 0, 0};
}
