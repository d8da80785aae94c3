/*
 * The second implementation's soundness: docs/MONITOR.md, 3, clause by clause, each
 * looked at by itself. Assumes nothing; each check after the first relies on the ones before it only
 * for the numbers it uses as places.
 */
#include <string.h>

#include "second.h"

static bool one_of(unsigned n, unsigned most) { return n >= 1 && n <= most; }

/* "long enough, numbers in range": the sizes first, so that every later place is within the run. */
static bool sizes_ok(const uint16_t *t, size_t words)
{
    if (words < 72) return false;
    if (!one_of(t[HEADER_P], MONITOR_PROCESSES_MOST)) return false;
    if (t[HEADER_B] > MONITOR_BUFFERS_MOST || t[HEADER_SEMAPHORES] > 16) return false;
    return words >= MONITOR_TABLE_WORDS((size_t)t[HEADER_P], (size_t)t[HEADER_B],
                                        (size_t)t[HEADER_SEMAPHORES]);
}

/* "Soundness allows FFFF only in edition 1." */
static bool kept(const uint16_t *t, unsigned d)
{
    return t[HEADER_EDITION] == 1 && DEVICE(t, d) == 0xFFFF;
}

/* Reasons: 0 to 3, and that of a RAISE (docs/MONITOR.md, 9). */
static bool reason_ok(unsigned reason) { return reason <= 3 || reason == 5; }

/* "numbers in range" of what the other clauses don't fix, and of everything used as a place. */
static bool ranges_ok(const uint16_t *t)
{
    unsigned processes = t[HEADER_P], buffers = t[HEADER_B];
    if (t[HEADER_FIRST] > processes || t[HEADER_LAST] > processes) return false;
    for (unsigned d = 0; d < MONITOR_DEVICES; d++)
        if (DEVICE(t, d) > processes && !kept(t, d)) return false;
    for (unsigned p = 1; p <= processes; p++) {
        if (PROCESS(t, p, PROCESS_NEXT) > processes) return false;
        if (PROCESS(t, p, PROCESS_PREVIOUS) > processes) return false;
        if (PROCESS(t, p, PROCESS_FIRST) > buffers) return false;
        if (PROCESS(t, p, PROCESS_LAST) > buffers) return false;
        if (PROCESS(t, p, PROCESS_STATE) > 5) return false;
        if (!reason_ok(PROCESS(t, p, PROCESS_REASON))) return false;
        if (PROCESS(t, p, PROCESS_AWAITED) > buffers) return false;
        if (PROCESS(t, p, PROCESS_DEVICE) > MONITOR_DEVICES) return false;
        if (PROCESS(t, p, PROCESS_SEMAPHORE) > t[HEADER_SEMAPHORES]) return false;
    }
    for (unsigned b = 1; b <= buffers; b++) {
        if (BUFFER(t, b, BUFFER_NEXT) > buffers) return false;
        if (BUFFER(t, b, BUFFER_PREVIOUS) > buffers) return false;
        if (!one_of(BUFFER(t, b, BUFFER_OWNER), processes)) return false;
        if (BUFFER(t, b, BUFFER_RECEIVER) > processes) return false;
        if (BUFFER(t, b, BUFFER_STANDING) > 4) return false;
    }
    for (unsigned s = 1; s <= t[HEADER_SEMAPHORES]; s++) {
        if (SEMAPHORE(t, s, SEMAPHORE_FIRST) > processes) return false;
        if (SEMAPHORE(t, s, SEMAPHORE_LAST) > processes) return false;
    }
    return true;
}

/* "zero words zero"; for the edition, "another edition word makes a table unsound". */
static bool zeros_ok(const uint16_t *t)
{
    if (t[HEADER_EDITION] > 1) return false;
    for (unsigned i = HEADER_ZEROS; i < HEADER_DEVICES; i++)
        if (t[i] != 0) return false;
    for (unsigned s = 1; s <= t[HEADER_SEMAPHORES]; s++)
        if (SEMAPHORE(t, s, SEMAPHORE_ZERO) != 0) return false;
    return true;
}

/* "A name is 1 to 5 non-zero bytes, left byte first, then zeros." */
bool second_name(const uint16_t *name)
{
    unsigned char byte[6];
    unsigned length = 0;
    for (unsigned i = 0; i < 6; i++) byte[i] = (unsigned char)(name[i / 2] >> (i % 2 ? 0 : 8));
    while (length < 6 && byte[length] != 0) length++;
    if (length < 1 || length > 5) return false;
    for (unsigned i = length; i < 6; i++)
        if (byte[i] != 0) return false;
    return true;
}

/* "priorities 1 to 255, names legal and distinct". */
static bool entries_ok(const uint16_t *t)
{
    for (unsigned p = 1; p <= t[HEADER_P]; p++) {
        const uint16_t *name = &PROCESS(t, p, PROCESS_NAME);
        if (!one_of(PROCESS(t, p, PROCESS_PRIORITY), 255) || !second_name(name)) return false;
        for (unsigned q = 1; q < p; q++)
            if (memcmp(name, &PROCESS(t, q, PROCESS_NAME), 3 * sizeof *name) == 0) return false;
    }
    return true;
}

/* "own buffers consecutive in process order, all B given out, owners agreeing". */
static bool owners_ok(const uint16_t *t)
{
    unsigned given = 0;
    for (unsigned p = 1; p <= t[HEADER_P]; p++) {
        unsigned owns = PROCESS(t, p, PROCESS_OWNS);
        if (PROCESS(t, p, PROCESS_OWN) != (owns == 0 ? 0 : given + 1)) return false;
        if (given + owns > t[HEADER_B]) return false;
        for (unsigned b = given + 1; b <= given + owns; b++)
            if (BUFFER(t, b, BUFFER_OWNER) != p) return false;
        given += owns;
    }
    return given == t[HEADER_B];
}

/* "the running queue holds exactly the processes in state 1, each once, linked both ways,
 * priorities never rising; a record in no queue has links 0": in state 5 it is in a semaphore's. */
static bool running_ok(const uint16_t *t)
{
    bool met[MONITOR_PROCESSES_MOST + 1] = {false};
    unsigned before = 0, left = t[HEADER_P];
    for (unsigned p = t[HEADER_FIRST]; p != 0; p = PROCESS(t, p, PROCESS_NEXT)) {
        if (left-- == 0 || met[p]) return false;
        met[p] = true;
        if (PROCESS(t, p, PROCESS_PREVIOUS) != before) return false;
        if (before != 0 &&
            PROCESS(t, before, PROCESS_PRIORITY) < PROCESS(t, p, PROCESS_PRIORITY))
            return false;
        before = p;
    }
    if (t[HEADER_LAST] != before) return false;
    for (unsigned p = 1; p <= t[HEADER_P]; p++) {
        if (met[p] != (PROCESS(t, p, PROCESS_STATE) == MONITOR_STATE_RUNNING)) return false;
        if (met[p] || PROCESS(t, p, PROCESS_STATE) == MONITOR_STATE_WAITS_SEMAPHORE) continue;
        if (PROCESS(t, p, PROCESS_NEXT) != 0 || PROCESS(t, p, PROCESS_PREVIOUS) != 0) return false;
    }
    return true;
}

/* "a counter below zero is minus the number waiting; otherwise nobody waits", and "each queue holding exactly
 * its state 5 waiters once, linked both ways". */
static bool waiters_ok(const uint16_t *t, unsigned s)
{
    bool met[MONITOR_PROCESSES_MOST + 1] = {false};
    int waiting = 0;
    unsigned before = 0;
    for (unsigned p = SEMAPHORE(t, s, SEMAPHORE_FIRST); p != 0; p = PROCESS(t, p, PROCESS_NEXT)) {
        if (met[p]) return false;
        met[p] = true;
        waiting++;
        if (PROCESS(t, p, PROCESS_PREVIOUS) != before) return false;
        before = p;
    }
    if (SEMAPHORE(t, s, SEMAPHORE_LAST) != before) return false;
    for (unsigned p = 1; p <= t[HEADER_P]; p++) {
        bool waits = PROCESS(t, p, PROCESS_STATE) == 5 && PROCESS(t, p, PROCESS_SEMAPHORE) == s;
        if (met[p] != waits) return false;
    }
    return counter_of(t, s) < 0 ? waiting == -counter_of(t, s) : waiting == 0;
}

/* In whose event queue buffer b belongs, 0 if in none. */
static unsigned queue_of(const uint16_t *t, unsigned b)
{
    if (BUFFER(t, b, BUFFER_STANDING) == MONITOR_QUEUED) return BUFFER(t, b, BUFFER_RECEIVER);
    if (BUFFER(t, b, BUFFER_STANDING) == MONITOR_ANSWERED) return BUFFER(t, b, BUFFER_OWNER);
    return 0;
}

/* "p's event queue holds, each once and linked both ways, exactly the buffers of standing 1 with
 * receiver p or standing 3 with owner p". */
static bool events_ok(const uint16_t *t, unsigned p)
{
    bool met[MONITOR_BUFFERS_MOST + 1] = {false};
    unsigned before = 0, left = t[HEADER_B];
    for (unsigned b = PROCESS(t, p, PROCESS_FIRST); b != 0; b = BUFFER(t, b, BUFFER_NEXT)) {
        if (left-- == 0 || met[b]) return false;
        met[b] = true;
        if (BUFFER(t, b, BUFFER_PREVIOUS) != before) return false;
        before = b;
    }
    if (PROCESS(t, p, PROCESS_LAST) != before) return false;
    for (unsigned b = 1; b <= t[HEADER_B]; b++)
        if (met[b] != (queue_of(t, b) == p)) return false;
    return true;
}

/* "a record in no queue has links 0; a free buffer has receiver and message words 0, any other a
 * receiver that isn't its owner"; for the age, "0 in free buffers only". */
static bool buffer_ok(const uint16_t *t, unsigned b)
{
    if (queue_of(t, b) == 0 &&
        (BUFFER(t, b, BUFFER_NEXT) != 0 || BUFFER(t, b, BUFFER_PREVIOUS) != 0))
        return false;
    unsigned receiver = BUFFER(t, b, BUFFER_RECEIVER);
    if (BUFFER(t, b, BUFFER_STANDING) != MONITOR_FREE)
        return receiver != 0 && receiver != BUFFER(t, b, BUFFER_OWNER);
    if (BUFFER(t, b, BUFFER_AGE) != 0) return false;
    for (unsigned i = 0; i < 4; i++)
        if (BUFFER(t, b, BUFFER_WORDS + i) != 0) return false;
    return receiver == 0;
}

/* "state 2 has an empty event queue; word 7 names an own buffer of standing 1 or 2 in state 3, else
 * 0; word 8 names a device in state 4, else 0; delay 0 outside states 2 and 4; reason 0 outside
 * state 1"; "word 15 names the semaphore, 0 outside state 5". */
static bool waits_ok(const uint16_t *t, unsigned p)
{
    unsigned state = PROCESS(t, p, PROCESS_STATE), awaited = PROCESS(t, p, PROCESS_AWAITED);
    if (state == MONITOR_STATE_WAITS_EVENT && PROCESS(t, p, PROCESS_FIRST) != 0) return false;
    if ((awaited != 0) != (state == MONITOR_STATE_WAITS_ANSWER)) return false;
    if (awaited != 0) {
        unsigned standing = BUFFER(t, awaited, BUFFER_STANDING);
        if (BUFFER(t, awaited, BUFFER_OWNER) != p) return false;
        if (standing != MONITOR_QUEUED && standing != MONITOR_HELD) return false;
    }
    if ((PROCESS(t, p, PROCESS_DEVICE) != 0) != (state == MONITOR_STATE_WAITS_INTERRUPT)) return false;
    if ((PROCESS(t, p, PROCESS_SEMAPHORE) != 0) != (state == MONITOR_STATE_WAITS_SEMAPHORE)) return false;
    if (state != MONITOR_STATE_WAITS_EVENT && state != MONITOR_STATE_WAITS_INTERRUPT &&
        PROCESS(t, p, PROCESS_DELAY) != 0)
        return false;
    return state == MONITOR_STATE_RUNNING || PROCESS(t, p, PROCESS_REASON) == 0;
}

/* "device words name exactly those waiters"; a kept interrupt names nobody. */
static bool devices_ok(const uint16_t *t)
{
    for (unsigned d = 0; d < MONITOR_DEVICES; d++)
        if (DEVICE(t, d) != 0 && !kept(t, d) && PROCESS(t, DEVICE(t, d), PROCESS_DEVICE) != d + 1)
            return false;
    for (unsigned p = 1; p <= t[HEADER_P]; p++) {
        unsigned device = PROCESS(t, p, PROCESS_DEVICE);
        if (device != 0 && DEVICE(t, device - 1) != p) return false;
    }
    return true;
}

bool second_sound(const uint16_t *t, size_t words)
{
    if (!sizes_ok(t, words) || !ranges_ok(t) || !zeros_ok(t) || !entries_ok(t)) return false;
    if (!owners_ok(t) || !running_ok(t) || !devices_ok(t)) return false;
    for (unsigned p = 1; p <= t[HEADER_P]; p++)
        if (!events_ok(t, p) || !waits_ok(t, p)) return false;
    for (unsigned b = 1; b <= t[HEADER_B]; b++)
        if (!buffer_ok(t, b)) return false;
    for (unsigned s = 1; s <= t[HEADER_SEMAPHORES]; s++)
        if (!waiters_ok(t, s)) return false;
    return true;
}
