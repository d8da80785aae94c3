/* Questions put to the archive and to the second reading. The archive gets every run on fenced words. */
#include "lending.h"

#include <string.h>

#include "lent.h"
#include "second_waits.h"

_Static_assert(sizeof(struct monitor_stuck_report) == 6, "a report is three words without gaps");
_Static_assert(sizeof(struct monitor_rings_report) == 6, "a report is three words without gaps");

enum { REPORT_WORDS = 3, UNTOUCHED = 0x5AA5 };

typedef void stuck_entry(const uint16_t *, size_t, uint16_t *, size_t, uint16_t,
                         struct monitor_stuck_report *);
typedef void rings_entry(const uint16_t *, size_t, uint16_t *, size_t,
                         struct monitor_rings_report *);

static void ask(const struct question *question, struct reply *reply, stuck_entry *stuck,
                rings_entry *rings)
{
    static const uint16_t untouched[REPORT_WORDS] = {UNTOUCHED, UNTOUCHED, UNTOUCHED};
    static struct lent tables, rooms, reports;
    if (tables.fence == NULL) {
        tables = lent_area(TABLE_MOST);
        rooms = lent_area(TABLE_MOST);
        reports = lent_area(REPORT_WORDS);
    }
    size_t words = question->table.words;
    uint16_t *table = lend(&tables, question->table.word, words);
    uint16_t *room = lend(&rooms, question->room.word, question->room.words);
    uint16_t *report = lend(&reports, untouched, REPORT_WORDS);
    if (question->rings)
        rings(table, words, room, question->room.words, (void *)report);
    else
        stuck(table, words, room, question->room.words, question->process, (void *)report);
    memcpy(reply->report, report, sizeof reply->report);
    reply->room.words = question->room.words;
    memcpy(reply->room.word, room, question->room.words * sizeof *room);
    reply->outside = memcmp(table, question->table.word, words * sizeof *table) != 0 ||
                     !margin_kept(&tables) || !margin_kept(&rooms) || !margin_kept(&reports);
}

void ask_archive(const struct question *question, struct reply *reply)
{
    ask(question, reply, monitor_stuck, monitor_rings);
}

void ask_second(const struct question *question, struct reply *reply)
{
    ask(question, reply, second_stuck, second_rings);
}

bool same_reply(const struct reply *x, const struct reply *y)
{
    return memcmp(x->report, y->report, sizeof x->report) == 0 && same_run(&x->room, &y->room) &&
           x->outside == y->outside;
}

static void write_numbers(FILE *to, const char *name, const uint16_t *word, size_t words)
{
    fprintf(to, "%s:", name);
    for (size_t i = 0; i < words; i++) fprintf(to, " %u", (unsigned)word[i]);
    putc('\n', to);
}

void write_reply(FILE *to, const struct question *question, const struct reply *reply)
{
    if (question->rings)
        fputs("all rings\n", to);
    else
        fprintf(to, "process %u\n", (unsigned)question->process);
    write_numbers(to, "table", question->table.word, question->table.words);
    write_numbers(to, "room", question->room.word, question->room.words);
    write_numbers(to, "report", reply->report, REPORT_WORDS);
    write_numbers(to, "room after", reply->room.word, reply->room.words);
    if (reply->outside) fputs("the table, or something beside what was lent, was changed\n", to);
}
