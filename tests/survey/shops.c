/*
 * shops FOLDER FIRST LOGS CALLS EDITION [FAULTS]: so many logs of so many calls, FOLDER/0001.log and so on, made by the second
 * implementation at the soak's station and woven with its answers; a log's number is its seed. With FAULTS faults are planted:
 * in one of so many sends a buffer is lost, in one of so many ticks a stranger is woken, in one of twenty waits that must be
 * refused, or that find what a clean has answered, somebody is put to wait for an answer already withdrawn, and in one of six times
 * so many calls the answer is another, is left out or comes twice. A station goes on behind a fault as if nothing had been.
 *
 * Writes a line for each log: its name, the line of the first fault and its kind, 0 and 'none' where it has none, and how many calls,
 * ticks and conversations there are up to the fault.
 */
#include <stdio.h>
#include <stdlib.h>
#include <string.h>

#include "../monitor/draw.h"
#include "../monitor/second.h"
#include "../soak/station.h"
#include "elvomike/quick.h"

enum kind { NONE, LOST, WITHDRAWN, STRANGER, OTHER, LEFT_OUT, TWICE };
static const char *const names[] = {"none", "lost", "withdrawn", "stranger", "other", "other", "other"};

enum { CALLS_MOST = 1000000 };
static unsigned faults;                        /* one in so many */
static unsigned made;                          /* calls of this log */
static unsigned char planted[CALLS_MOST];      /* by call: an enum kind */
static uint16_t before[MONITOR_TABLE_WORDS_MOST];

static bool one_in(unsigned many) { return many > 0 && below(many) == 0; }

static void refuse(struct monitor_registers *r, uint16_t number)
{
    memset(&r->number, 0, sizeof *r - offsetof(struct monitor_registers, number));
    r->number = number;
}

/* An own buffer of the caller that was open before the call, or 0. */
static uint16_t open_own(void)
{
    const uint16_t caller = before[HEADER_FIRST];
    for (uint16_t b = 1; b <= before[HEADER_B]; b++)
        if (BUFFER(before, b, BUFFER_OWNER) == caller && BUFFER(before, b, BUFFER_STANDING) != MONITOR_FREE) return b;
    return 0;
}

/* A process that doesn't run, or 0. */
static uint16_t asleep(const uint16_t *table)
{
    for (uint16_t p = 1; p <= table[HEADER_P]; p++)
        if (PROCESS(table, p, PROCESS_STATE) > MONITOR_STATE_RUNNING) return p;
    return 0;
}

/* A message goes out in a buffer that is still open, or is refused for want of one. */
static enum kind lose(struct monitor_registers *r)
{
    const uint16_t used = open_own();
    if (used != 0 && chance(50)) r->buffer = used;
    else refuse(r, MONITOR_NO_FREE_BUFFER);
    return LOST;
}

/* Whether the caller asks for an answer in an own buffer in which none can come any more. */
static bool asks_in_vain(const struct monitor_registers *r)
{
    const uint16_t a = r->a;
    if (r->call != MONITOR_WAIT_ANSWER || before[HEADER_FIRST] == 0 || a == 0 || a > before[HEADER_B]) return false;
    return r->number == MONITOR_WRONG_BUFFER && BUFFER(before, a, BUFFER_OWNER) == before[HEADER_FIRST];
}

/* The caller is put to wait all the same, and who is behind it runs. */
static enum kind withdraw(struct monitor_registers *r)
{
    refuse(r, MONITOR_DONE);
    r->current = PROCESS(before, before[HEADER_FIRST], PROCESS_NEXT);
    return WITHDRAWN;
}

/* Another answer than is due, that shows none of the three faults. */
static enum kind change(struct monitor_registers *r)
{
    const unsigned way = below(4);
    if (way == 0) return LEFT_OUT;
    if (way == 1) return TWICE;
    if (r->number != MONITOR_DONE) r->number = r->number == MONITOR_WRONG_STATE ? MONITOR_NO_CURRENT : MONITOR_WRONG_STATE;
    else {
        const uint16_t by = (uint16_t)(1 + below(65535)); /* drawn before the place is, by whatever compiler */
        r->r[below(4)] ^= by;
    }
    return OTHER;
}

static enum kind plant(const uint16_t *table, struct monitor_registers *r)
{
    const bool done = r->number == MONITOR_DONE;
    if (r->call == MONITOR_SEND && done && one_in(faults)) return lose(r);
    if (r->call == MONITOR_TICK && asleep(table) && one_in(faults)) {
        r->current = asleep(table);
        return STRANGER;
    }
    if (faults && asks_in_vain(r) && one_in(20)) return withdraw(r);
    return one_in(6 * faults) ? change(r) : NONE;
}

/* ---- the station's monitor is the second implementation, with the faults in it */

void monitor_trap(uint16_t *table, size_t table_words, uint16_t *room, size_t room_words, struct monitor_registers *r)
{
    memcpy(before, table, 2 * table_words);
    second_trap(table, table_words, room, room_words, r);
    struct monitor_registers right = *r;
    planted[made] = (unsigned char)plant(table, r);
    if (planted[made] == LOST && right.number == MONITOR_DONE && r->number != MONITOR_DONE) memcpy(table, before, 2 * table_words);
    made++;
}

void monitor_quick(uint16_t *table, size_t table_words, uint16_t *room, size_t room_words, struct monitor_registers *r)
{
    monitor_trap(table, table_words, room, room_words, r);
}

uint16_t monitor_layout(const uint16_t *list, size_t list_words, uint16_t edition, const uint16_t *counters, size_t counter_words, uint16_t *table,
                        size_t table_words)
{
    return second_layout(list, list_words, edition, counters, counter_words, table, table_words);
}

/* ---- the log */

struct truth {
    unsigned line, calls, ticks, talks;
    enum kind kind;
};

/* The next line of a text, and its size without its end. */
static const char *next_line(const char **text, size_t *size)
{
    const char *line = *text, *end = strchr(line, '\n');
    *size = end ? (size_t)(end - line) : 0;
    *text = end ? end + 1 : line;
    return line;
}

static bool is_row(const char *text) { return strcspn(text, "\n") == 20; }

/* Writes a call's answers; gives how many lines they are. The line that a fault is in goes to the truth. */
static unsigned write_answers(FILE *log, const char **out, enum kind kind, unsigned line, struct truth *truth)
{
    unsigned lines = 0;
    size_t size;
    const char *first = *out;
    do {
        const char *answer = next_line(out, &size);
        if (kind != LEFT_OUT) lines++, fprintf(log, "> %.*s\n", (int)size, answer);
    } while (is_row(*out));
    if (kind == TWICE) lines++, fprintf(log, "> %.*s\n", 30, first);
    if (kind != NONE && truth->kind == NONE) {
        truth->kind = kind;
        truth->line = kind == TWICE ? line + lines : line + 1;
    }
    return lines;
}

static struct truth write_log(FILE *log, const struct log *texts)
{
    struct truth truth = {0};
    const char *in = texts->in.bytes, *out = texts->out.bytes;
    for (unsigned line = 1, call = 0; *in; line++) {
        size_t size;
        const char *asked = next_line(&in, &size);
        fprintf(log, "%.*s\n", (int)size, asked);
        if (strncmp(asked, "00", 2) == 0) continue;
        if (truth.kind == NONE) {
            truth.calls++;
            truth.ticks += strncmp(asked, "09", 2) == 0;
            truth.talks += strncmp(asked, "01", 2) == 0 && (strncmp(out, "00", 2) == 0 || planted[call] == LOST);
        }
        line += write_answers(log, &out, (enum kind)planted[call++], line, &truth);
    }
    return truth;
}

int main(int count, char **word)
{
    static struct station s;
    if (count < 6) return fprintf(stderr, "shops: FOLDER, FIRST, LOGS, CALLS and EDITION are wanted.\n"), 2;
    const unsigned first = (unsigned)strtoul(word[2], NULL, 10), logs = (unsigned)strtoul(word[3], NULL, 10);
    const unsigned calls = (unsigned)strtoul(word[4], NULL, 10), edition = (unsigned)strtoul(word[5], NULL, 10);
    faults = count > 6 ? (unsigned)strtoul(word[6], NULL, 10) : 0;
    for (unsigned number = first; number < first + logs; number++) {
        char name[4096];
        snprintf(name, sizeof name, "%s/%04u.log", word[1], number);
        FILE *log = fopen(name, "w");
        if (log == NULL) return fprintf(stderr, "shops: '%s' can't be written.\n", name), 2;
        draw_from(number);
        made = 0;
        station_begin(&s, edition);
        while (made < calls && made < CALLS_MOST) station_step(&s);
        const struct truth truth = write_log(log, &s.log);
        if (fclose(log) != 0) return 2;
        printf("%04u.log %u %s %u %u %u\n", number, truth.line, names[truth.kind], truth.calls, truth.ticks, truth.talks);
    }
    return 0;
}
