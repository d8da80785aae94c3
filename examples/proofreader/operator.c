/*
 * The operator, who now and then cleans a process and starts it anew, as shops do; and who cleans all of them where no
 * page has come out for WATCH ticks, which with a monitor that keeps its promises never comes up.
 */
#include "proofreader.h"

enum { WATCH = 2000 };

static uint32_t drawn(uint32_t below) /* Marsaglia's xorshift */
{
    proofreader.seed ^= proofreader.seed << 13;
    proofreader.seed ^= proofreader.seed >> 17;
    proofreader.seed ^= proofreader.seed << 5;
    return proofreader.seed % below;
}

/* Cleans the processes from the first to the last, and starts them anew. Whoever has the word list or a page half
 * printed is let finish first. */
static void clean(unsigned first, unsigned last)
{
    station_lower(LIST);
    station_lower(PAPER);
    for (unsigned p = first; p <= last; p++) station_clean(p);
    for (unsigned p = first; p <= last; p++) station_start(p);
    station_raise(PAPER);
    station_raise(LIST);
}

static void end_standstill(void)
{
    proofreader.standstills++;
    if (proofreader.standstill != NULL) proofreader.standstill();
    clean(READER, PRINTER);
}

void operator_at_work(void)
{
    uint32_t printed = 0, since = 0, next = 0;
    for (;;) {
        struct station_event event;
        if (proofreader.cleans != 0 && next <= station_ticks()) next = station_ticks() + 1 + drawn(2 * proofreader.cleans - 1);
        uint32_t watch = since + WATCH, until = proofreader.cleans != 0 && next < watch ? next : watch;
        station_wait_event(until > station_ticks() ? until - station_ticks() : 1, &event);
        if (printed != proofreader.printed) {
            printed = proofreader.printed;
            since = station_ticks();
        }
        if (station_ticks() - since >= WATCH) {
            end_standstill();
            since = station_ticks();
        } else if (proofreader.cleans != 0 && station_ticks() >= next) {
            unsigned p = READER + drawn(OPERATOR - READER);
            clean(p, p);
            proofreader.cleaned++;
        }
    }
}
