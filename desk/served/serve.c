/*
 * One table kept, and requests on it served line by line by the proved monitor: what ./console and ./explain --table ask on
 * standard input and read from standard output. A request is a letter and words of four hexadecimal digits, a blank before each; what comes
 * back is a line of such words. A line of any other shape, or with too many words, ends the program.
 *
 *     L edition counters .. counter .. list ..   lays out: how many counters, those, the list       number
 *     C call a b w w w w                         does a call                    number kind buffer current r r r r rows ..
 *     K process                                  who is stuck behind whom                            number count ring list ..
 *     R                                          the rings                                           number rings words list ..
 *     S                                          the operator's screen                               number records ..
 *     F                                          why the table isn't sound                           clause record place
 *     W                                          the table's words                                   all of them, as far as used
 *     T word ..                                  the table's words are these from now on             how many
 *
 * The words behind T may be no sound table: the monitor says so. Exit codes: 0 the requests ended, 2 one was none.
 */
#include "elvomike/monitor.h"
#include "elvomike/screen.h"
#include "elvomike/why.h"

#include <stdbool.h>
#include <stdio.h>
#include <string.h>

enum { WORDS_MOST = MONITOR_TABLE_WORDS_MOST + 8, TROUBLE = 2 };
enum { CALL_WORDS = 7, DIGITS = 4 };

static uint16_t table[MONITOR_TABLE_WORDS_MOST], room[MONITOR_LISTING_WORDS * MONITOR_BUFFERS_MOST];
static uint16_t asked[WORDS_MOST];
static size_t count, used; /* how many words were asked with, and how many the table uses */

/* ---- writing */

static void put(uint16_t word) { printf(" %04X", (unsigned)word); }

static void put_all(const uint16_t *words, size_t many)
{
    for (size_t i = 0; i < many; i++) put(words[i]);
}

/* ---- what is asked */

static bool lay_out(void)
{
    if (count < 2 || asked[1] > count - 2) return false;
    const size_t counters = asked[1], list = count - 2 - counters;
    uint16_t fresh[MONITOR_TABLE_WORDS_MOST] = {0};
    const uint16_t number = monitor_layout(asked + 2 + counters, list, asked[0], asked + 2, counters, fresh, MONITOR_TABLE_WORDS_MOST);
    if (number == MONITOR_DONE) {
        memcpy(table, fresh, sizeof table);
        used = MONITOR_TABLE_WORDS(table[MONITOR_PROCESSES_PLACE], table[MONITOR_BUFFERS_PLACE], table[MONITOR_SEMAPHORES_PLACE]);
    }
    put(number);
    return true;
}

static bool call(void)
{
    if (count != CALL_WORDS) return false;
    struct monitor_registers r = {.call = asked[0], .a = asked[1], .b = asked[2]};
    memcpy(r.w, asked + 3, sizeof r.w);
    monitor_trap(table, used, room, sizeof room / sizeof *room, &r);
    put(r.number);
    put(r.kind);
    put(r.buffer);
    put(r.current);
    put_all(r.r, 4);
    if (r.call == MONITOR_LIST && r.number == MONITOR_DONE) put_all(room, (size_t)MONITOR_LISTING_WORDS * r.kind);
    return true;
}

static bool stuck(void)
{
    if (count != 1) return false;
    struct monitor_stuck_report report;
    monitor_stuck(table, used, room, MONITOR_STUCK_WORDS_MOST, asked[0], &report);
    put(report.number);
    put(report.count);
    put(report.ring);
    put_all(room, report.count);
    return true;
}

static bool rings(void)
{
    struct monitor_rings_report report;
    monitor_rings(table, used, room, MONITOR_RINGS_WORDS_MOST, &report);
    put(report.number);
    put(report.rings);
    put(report.words);
    put_all(room, report.words);
    return count == 0;
}

static bool screen(void)
{
    struct monitor_summary list[MONITOR_PROCESSES_MOST];
    const uint16_t number = monitor_screen(table, used, list, MONITOR_PROCESSES_MOST);
    put(number);
    for (size_t p = 0; number == MONITOR_DONE && p < table[MONITOR_PROCESSES_PLACE]; p++) {
        put(list[p].number);
        put(list[p].state);
        put(list[p].queue);
        put(list[p].sent);
    }
    return count == 0;
}

static bool why(void)
{
    const struct monitor_fault fault = monitor_why(table, used);
    put(fault.clause);
    put(fault.record);
    put(fault.place);
    return count == 0;
}

static bool write_words(void)
{
    put_all(table, used);
    return count == 0;
}

static bool take_words(void)
{
    if (count > MONITOR_TABLE_WORDS_MOST) return false;
    memcpy(table, asked, count * sizeof *asked);
    used = count;
    put((uint16_t)used);
    return true;
}

/* ---- reading */

static int digit(int byte) { return byte >= '0' && byte <= '9' ? byte - '0' : byte >= 'A' && byte <= 'F' ? byte - 'A' + 10 : -1; }

/* The words behind a request's letter, up to the line's end. */
static bool read_words(void)
{
    int byte = getchar();
    for (count = 0; byte == ' ' && count < WORDS_MOST; byte = getchar()) {
        unsigned word = 0;
        for (int i = 0; i < DIGITS; i++) {
            const int value = digit(getchar());
            if (value < 0) return false;
            word = word << 4 | (unsigned)value;
        }
        asked[count++] = (uint16_t)word;
    }
    return byte == '\n';
}

static bool serve(int letter)
{
    switch (letter) {
    case 'L': return lay_out();
    case 'C': return call();
    case 'K': return stuck();
    case 'R': return rings();
    case 'S': return screen();
    case 'F': return why();
    case 'W': return write_words();
    case 'T': return take_words();
    default: return false;
    }
}

int main(void)
{
    for (int letter; (letter = getchar()) != EOF;) {
        if (!read_words() || !serve(letter)) return TROUBLE;
        putchar('\n');
        if (fflush(stdout) != 0) return TROUBLE;
    }
    return 0;
}
