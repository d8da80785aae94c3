/* The two clocks. Assumes a system with mmap. */
#include "clock.h"

#include <string.h>

#include "../monitor/lent.h"

static struct lent queue_lent, room_lent;
static bool room_end_written;

static bool is_process(const struct plain *clock, unsigned p) { return p >= 1 && p <= clock->processes; }

void plain_feed(struct plain *clock, const struct event *event, struct outcome *outcome)
{
    outcome->woken = 0;
    if (event->what == TICK) {
        for (unsigned p = 1; p <= clock->processes; p++) {
            if (clock->left[p] == 1) outcome->who[outcome->woken++] = (uint16_t)p;
            if (clock->left[p] > 0) clock->left[p]--;
        }
    } else if (is_process(clock, event->process)) {
        clock->left[event->process] = event->what == WAIT ? event->delay : 0;
    }
    memcpy(outcome->left, clock->left, sizeof outcome->left);
}

struct queue lend_queue(const uint16_t *contents, size_t words)
{
    if (queue_lent.fence == NULL) {
        queue_lent = lent_area(WORDS_MOST);
        room_lent = lent_area(WORDS_MOST);
        lend(&room_lent, contents, 0);
    }
    return (struct queue){words, lend(&queue_lent, contents, words)};
}

/* A tick into a room whose words are told apart, so that one written behind those woken is seen. */
static uint16_t tick(const struct queue *queue, size_t room_words, struct outcome *outcome)
{
    uint16_t before[WORDS_MOST];
    for (unsigned i = 0; i < WORDS_MOST; i++) before[i] = (uint16_t)(0xB000 + i);
    uint16_t *room = lend(&room_lent, before, room_words);
    const struct delays_ticked t = delays_tick(queue->word, queue->words, room, room_words);
    outcome->woken = t.count <= MOST ? t.count : MOST;
    memcpy(outcome->who, room, (outcome->woken < room_words ? outcome->woken : room_words) * sizeof *room);
    for (size_t i = t.count; i < room_words; i++)
        if (room[i] != before[i]) room_end_written = true;
    return t.number;
}

uint16_t queue_feed(const struct queue *queue, const struct event *event, size_t room_words,
                    struct outcome *outcome)
{
    uint16_t number;
    outcome->woken = 0;
    if (event->what == TICK)
        number = tick(queue, room_words, outcome);
    else if (event->what == WAIT)
        number = delays_wait(queue->word, queue->words, event->process, event->delay);
    else
        number = delays_leave(queue->word, queue->words, event->process);
    for (unsigned p = 0; p <= MOST; p++)
        outcome->left[p] = delays_left(queue->word, queue->words, (uint16_t)p).time;
    return number;
}

bool outside_written(void)
{
    return room_end_written || !margin_kept(&queue_lent) || !margin_kept(&room_lent);
}

bool same_outcome(unsigned processes, const struct outcome *x, const struct outcome *y)
{
    return x->woken == y->woken && memcmp(x->who, y->who, x->woken * sizeof x->who[0]) == 0 &&
           memcmp(x->left + 1, y->left + 1, processes * sizeof x->left[0]) == 0;
}

void write_outcome(FILE *to, unsigned processes, const struct outcome *outcome)
{
    fputs("woken", to);
    for (size_t i = 0; i < outcome->woken; i++) fprintf(to, " %u", (unsigned)outcome->who[i]);
    fputs(", left", to);
    for (unsigned p = 1; p <= processes; p++) fprintf(to, " %u", (unsigned)outcome->left[p]);
    fputs("\n", to);
}
