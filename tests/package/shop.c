/*
 * A small program of a station's maker, C99 and C++11: one message there and back, its log on standard output, and what the
 * screen shows at the end. It is built from the parcel alone, or from what 'make install' and 'cmake --install' put in a prefix.
 */
#include <elvomike/calls.h>
#include <elvomike/log.h>
#include <elvomike/screen.h>

#include <stdio.h>
#include <stdlib.h>

#if MONITOR_VERSION < MONITOR_VERSION_OF(0, 2, 0)
#error "the headers are older than this program"
#endif

enum { READ = 1, SPELL = 2, PROCESSES = 2, BUFFERS = 1 };
MONITOR_TABLE(shop, PROCESSES, BUFFERS, 0);

static void put(const char *line, size_t chars) { fwrite(line, 1, chars, stdout); }

/* Logs the last call, and ends the program where it was refused. */
static void called(uint16_t number)
{
    char line[MONITOR_LOG_CHARS_MOST];
    put(line, monitor_log_call(&shop.last, line, sizeof line));
    put(line, monitor_log_answer(&shop.last, line, sizeof line));
    if (number == MONITOR_DONE) return;
    printf("refused: %s\n", monitor_refusal_text(number));
    exit(1);
}

int main(void)
{
    static const uint16_t list[] = {5, 1, 0x5245, 0x4144, 0, 3, 0, 0x5350, 0x454C, 0x4C00}, page[4] = {0x7061, 0x6765, 0x2037, 0};
    struct monitor_summary screen[PROCESSES];
    char line[MONITOR_LOG_CHARS_MOST];
    if (monitor_layout(list, 10, MONITOR_EDITION_FIRST, list, 0, shop.words, shop.count) != MONITOR_DONE) return 1;
    for (unsigned p = 0; p < PROCESSES; p++) put(line, monitor_log_layout(list + MONITOR_ENTRY_WORDS * p, line, sizeof line));
    called(monitor_start(&shop, READ).number);
    called(monitor_start(&shop, SPELL).number);
    const struct monitor_sent sent = monitor_send(&shop, SPELL, page);
    called(sent.number);
    called(monitor_wait_answer(&shop, sent.buffer).number);
    const struct monitor_event_wait taken = monitor_wait_event(&shop, 0);
    called(taken.number);
    called(monitor_send_answer(&shop, taken.buffer, taken.words).number);
    if (monitor_screen(shop.words, shop.count, screen, PROCESSES) != MONITOR_DONE) return 1;
    for (unsigned p = 0; p < PROCESSES; p++) printf("process %u: state %u, %u in its queue\n", p + 1, screen[p].state, screen[p].queue);
    return 0;
}
