/*
 * The calls of include/elvomike/calls.h through the monitor, by any compiler of C99 or C++11: each with its answer's own struct, done and
 * refused, by the entry that looks the table over and by the one that doesn't. Two tables go through the same, and must end alike.
 */
#include "elvomike/calls.h"
#include "elvomike/quick.h"
/* again */
#include "elvomike/calls.h"

#include <stdio.h>
#include <string.h>

enum { READ = 1, SPELL = 2, PROCESSES = 2, BUFFERS = 2, SEMAPHORES = 1, DEVICE = 63 };

MONITOR_TABLE(checked, PROCESSES, BUFFERS, SEMAPHORES);
MONITOR_TABLE(quick, PROCESSES, BUFFERS, SEMAPHORES);

static unsigned faults;

static void hold(bool condition, const char *what)
{
    if (condition) return;
    printf("calls: %s.\n", what);
    faults++;
}

static void lay_out(const struct monitor_table *table)
{
    static const uint16_t list[] = {5, 1, 0x5245, 0x4144, 0, 3, 1, 0x5350, 0x454C, 0x4C00}, counters[] = {1};
    hold(table->count == 72 + 2 * 16 + 2 * 10 + 4, "a table has another length");
    hold(monitor_layout(list, 10, MONITOR_EDITION_SECOND, counters, SEMAPHORES, table->words, table->count) == MONITOR_DONE, "no layout");
}

/* A message goes out, is taken, answered and collected. */
static void converse(struct monitor_table *t)
{
    static const uint16_t message[4] = {1, 2, 3, 4}, reply[4] = {9, 8, 7, 6};
    hold(monitor_start(t, READ).current == READ && monitor_start(t, SPELL).current == READ, "starts");
    hold(monitor_start(t, SPELL).number == MONITOR_WRONG_STATE, "a second start is refused");
    const struct monitor_sent sent = monitor_send(t, SPELL, message);
    hold(sent.number == MONITOR_DONE && sent.buffer == 1 && sent.current == READ, "a message goes out in buffer 1");
    hold(monitor_send(t, SPELL, message).number == MONITOR_NO_FREE_BUFFER, "a second one has no buffer");
    hold(monitor_wait_answer(t, sent.buffer).waits && t->last.current == SPELL, "its sender waits");
    const struct monitor_event_wait taken = monitor_wait_event(t, 0);
    hold(taken.kind == MONITOR_KIND_MESSAGE && taken.buffer == 1 && memcmp(taken.words, message, sizeof message) == 0, "the message is taken");
    hold(monitor_send_answer(t, taken.buffer, reply).current == READ, "an answer wakes");
    const struct monitor_answer_wait heard = monitor_wait_answer(t, sent.buffer);
    hold(!heard.waits && heard.buffer == 1 && memcmp(heard.words, reply, sizeof reply) == 0, "the answer is collected");
    const struct monitor_answer_wait again = monitor_wait_answer(t, sent.buffer);
    hold(again.number == MONITOR_WRONG_BUFFER && !again.waits && again.current == 0, "a refused wait doesn't wait");
}

/* Devices, delays and semaphores; READ is current. */
static void wait(struct monitor_table *t)
{
    hold(monitor_wait_event(t, 1).kind == MONITOR_KIND_WAITS, "nothing came");
    hold(monitor_tick(t).woken == 1, "a tick wakes one");
    hold(monitor_interrupt(t, DEVICE).woken == 0, "an interrupt finds nobody, and is kept");
    hold(!monitor_wait_interrupt(t, DEVICE, 0).waits && monitor_wait_interrupt(t, DEVICE, 5).waits, "the kept one is given once");
    hold(monitor_interrupt(t, DEVICE).woken == READ, "the next one wakes its waiter");
    hold(monitor_interrupt(t, 64).number == MONITOR_NO_SUCH_DEVICE, "there is no device 64");
    hold(!monitor_lower(t, 1).waits && monitor_lower(t, 1).waits, "the first has the semaphore, the second waits");
    const struct monitor_semaphore_wait none = monitor_lower(t, 2);
    hold(none.number == MONITOR_NO_SUCH_SEMAPHORE && !none.waits, "a refused lower doesn't wait");
    hold(monitor_raise(t, 1).current == READ, "a raise wakes it");
}

/* READ's message is listed, and cleaning its receiver answers it. */
static void list(struct monitor_table *t)
{
    static const uint16_t message[4] = {0, 0, 0, 0}, row[] = {1, READ, SPELL, MONITOR_QUEUED, 0};
    uint16_t room[MONITOR_LISTING_WORDS];
    hold(monitor_send(t, SPELL, message).number == MONITOR_DONE, "a message to be listed");
    hold(monitor_list(t, SPELL, room, MONITOR_LISTING_WORDS - 1).number == MONITOR_ROOM_TOO_SHORT, "a short room is refused");
    hold(monitor_list(t, SPELL, room, MONITOR_LISTING_WORDS).rows == 1 && memcmp(room, row, sizeof row) == 0, "a row");
    hold(monitor_stop(t, SPELL).number == MONITOR_DONE && monitor_clean(t, SPELL).changed == 1, "a clean changes one buffer");
    hold(monitor_wait_event(t, 0).kind == MONITOR_KIND_ANSWER && t->last.r[0] == 0x8000, "and answers it");
}

int main(void)
{
    struct monitor_table *const both[] = {&checked, &quick};
    quick.entry = monitor_quick;
    for (unsigned i = 0; i < 2; i++) {
        lay_out(both[i]);
        converse(both[i]);
        wait(both[i]);
        list(both[i]);
    }
    hold(memcmp(checked_words, quick_words, sizeof checked_words) == 0, "both tables end alike");
    checked.words[0] = 33;
    hold(monitor_tick(&checked).number == MONITOR_TABLE_NOT_SOUND, "words that are no table are refused");
    return faults == 0 ? 0 : 1;
}
