/*
 * The soak's station; see station.h. Two readers send words to a speller, which passes them on to a screen and a printer; each
 * answers what it holds sooner or later, or never. Each program remembers what it has sent and what it holds. What an operator
 * does, it isn't told: what it remembers may be over, and then its call is refused.
 */
#include "station.h"

#include <stdio.h>
#include <stdlib.h>
#include <string.h>

#include "draw.h"
#include "elvomike/quick.h"

enum { READER = 1, SECOND_READER, SPELLER, SCREEN, PRINTER, KEYBOARD = 0, PAPER = 1, REMEMBERED = 8 };

/* The buffers that a process has sent, and those that it holds. */
struct memory {
    unsigned sent[REMEMBERED], held[REMEMBERED], sents, helds;
};
static struct memory memories[PROCESSES + 1];

static void remember(unsigned *list, unsigned *count, unsigned buffer)
{
    if (*count == REMEMBERED) memmove(list, list + 1, --*count * sizeof *list);
    list[(*count)++] = buffer;
}

/* One of those remembered, which is forgotten with it; 0 if there is none. */
static unsigned recall(unsigned *list, unsigned *count)
{
    if (*count == 0) return 0;
    const unsigned place = below(*count), buffer = list[place];
    list[place] = list[--*count];
    return buffer;
}

void station_call(struct station *s, unsigned number, unsigned a, unsigned b)
{
    s->r.call = (uint16_t)number;
    s->r.a = (uint16_t)a;
    s->r.b = (uint16_t)b;
    const bool quick = chance(50); /* nobody else writes the table */
    (quick ? monitor_quick : monitor_trap)(s->table, MONITOR_TABLE_WORDS(PROCESSES, s->buffers, 0), s->room,
                                           sizeof s->room / 2, &s->r);
    if (s->r.number == MONITOR_DONE) {
        s->current = s->r.current;
        s->made[number]++;
        s->quickly += quick;
        if (number == MONITOR_SEND && s->forgets && s->forgets-- == 1) return;
    }
    log_call(&s->log, &s->r, s->room);
}

void station_begin(struct station *s, unsigned edition)
{
    uint16_t list[MONITOR_ENTRY_WORDS * PROCESSES];
    s->buffers = 0;
    for (unsigned p = 1; p <= PROCESSES; p++) {
        uint16_t *entry = list + MONITOR_ENTRY_WORDS * (p - 1);
        entry[0] = (uint16_t)(1 + below(4));
        entry[1] = (uint16_t)(p == SCREEN ? 0 : below(5));
        entry[2] = (uint16_t)('A' << 8 | ('0' + p));
        entry[3] = entry[4] = 0;
        s->buffers += entry[1];
    }
    memset(memories, 0, sizeof memories);
    s->current = 0;
    if (monitor_layout(list, sizeof list / 2, (uint16_t)edition, list, 0, s->table,
                       MONITOR_TABLE_WORDS(PROCESSES, s->buffers, 0)) != MONITOR_DONE) {
        fprintf(stderr, "soak: the station can't be laid out.\n");
        exit(1);
    }
    log_begin(&s->log, list, PROCESSES);
}

static void send(struct station *s, struct memory *m, unsigned to)
{
    for (unsigned i = 0; i < 4; i++) s->r.w[i] = some_word();
    station_call(s, MONITOR_SEND, to, 0);
    if (s->r.number == MONITOR_DONE) remember(m->sent, &m->sents, s->r.buffer);
}

static void wait_event(struct station *s, struct memory *m)
{
    station_call(s, MONITOR_WAIT_EVENT, some_delay(), 0);
    if (s->r.number == MONITOR_DONE && s->r.kind == MONITOR_KIND_MESSAGE) remember(m->held, &m->helds, s->r.buffer);
}

static void answer(struct station *s, struct memory *m)
{
    for (unsigned i = 0; i < 4; i++) s->r.w[i] = some_word();
    station_call(s, MONITOR_SEND_ANSWER, recall(m->held, &m->helds), 0);
}

/* Waits for an answer, and remembers that it asked: who was woken asks again. */
static void wait_answer(struct station *s, struct memory *m)
{
    const unsigned buffer = recall(m->sent, &m->sents);
    station_call(s, MONITOR_WAIT_ANSWER, buffer, 0);
    if (s->r.number == MONITOR_DONE && s->r.kind == MONITOR_KIND_WAITS) remember(m->sent, &m->sents, buffer);
}

/* To whom a process sends: now and then to anyone, and even to nobody. */
static unsigned receiver(unsigned process)
{
    if (chance(5)) return below(PROCESSES + 2);
    if (process <= SECOND_READER) return SPELLER;
    return chance(50) ? SCREEN : PRINTER;
}

/* The next call of the current process's program. */
static void program(struct station *s)
{
    const unsigned p = s->current;
    struct memory *m = &memories[p];
    const unsigned act = below(100);
    if (act < 30)
        send(s, m, receiver(p));
    else if (act < 50)
        wait_event(s, m);
    else if (act < 80 && m->helds > 0)
        answer(s, m);
    else if (act < 90 && m->sents > 0)
        wait_answer(s, m);
    else {
        const unsigned device = p == PRINTER ? PAPER : below(3); /* before the delay is drawn, by whatever compiler */
        station_call(s, MONITOR_WAIT_INTERRUPT, device, some_delay());
    }
}

/* What the world does: the clock, the devices, and an operator who starts, stops, cleans and looks. */
static void world(struct station *s)
{
    const unsigned act = below(100), process = 1 + below(PROCESSES);
    if (act < 25)
        station_call(s, MONITOR_TICK, 0, 0);
    else if (act < 50)
        station_call(s, MONITOR_INTERRUPT, below(3), 0);
    else if (act < 75)
        station_call(s, MONITOR_START, process, 0);
    else if (act < 81)
        station_call(s, MONITOR_STOP, process, 0);
    else if (act < 87)
        station_call(s, MONITOR_CLEAN, process, 0);
    else
        station_call(s, MONITOR_LIST, process, 0);
}

void station_step(struct station *s)
{
    if (s->current != 0 && chance(75))
        program(s);
    else
        world(s);
}
