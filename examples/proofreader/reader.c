/*
 * The reader: takes the pages one by one, asks the speller about their lines, shows the screen what came of it, and has
 * the printer print them. Up to QUESTIONS lines are asked about at a time, and the answers are heard in the order of
 * the questions: the speller is one process. That an answer reaches only who asked, and that of a question which was
 * withdrawn no answer comes later, is the monitor's promise, and this program leans on it.
 */
#include "proofreader.h"

enum { QUESTIONS = 3 };

/* How many pages the printer has said are out. It outlives a clean, as a tape stays where it is in its reader. */
static uint16_t pages_out;

static struct marks marks[PAGE_LINES]; /* of the page that is read */

static bool is_withdrawn(const uint16_t r[4]) { return r[0] == STATION_WITHDRAWN; }

/* Every buffer is in use, those among them that others still hold for a reader that was cleaned: waits a tick. */
static void pause(void)
{
    struct station_event event;
    station_wait_event(1, &event);
}

static bool ask(uint16_t page, unsigned line)
{
    uint16_t buffer, w[4] = {page, text_sum(page, line), (uint16_t)line, 0};
    return station_send(SPELLER, w, &buffer) == MONITOR_DONE;
}

/* Whether the event is an answer about this page, or says that a question is withdrawn. What is about another page is
 * counted and thrown away. */
static bool is_heard(const struct station_event *event, uint16_t page)
{
    if (event->kind != MONITOR_KIND_ANSWER) return false;
    if (is_withdrawn(event->w) || event->w[0] == page) return true;
    proofreader.wrong_answers++;
    return false;
}

/* Hears what the speller says of a line; false if it was cleaned. An answer about another line of the page is known by
 * its sum, and counted; it is taken all the same, as the shops' stations take it, which tell no sums. */
static bool hear(uint16_t page, unsigned line)
{
    struct station_event event;
    do station_wait_event(0, &event);
    while (!is_heard(&event, page));
    if (is_withdrawn(event.w)) return false;
    if (event.w[1] != text_sum(page, line)) proofreader.wrong_answers++;
    marks[line].first = event.w[2];
    marks[line].second = event.w[3];
    return true;
}

/* Asks about all lines of the page; false if a question was withdrawn, and none is open then. */
static bool is_proofread(uint16_t page)
{
    unsigned lines = text_lines(page), asked = 0, heard = 0;
    bool whole = true;
    while (heard < (whole ? lines : asked)) {
        if (whole && asked < lines && asked - heard < QUESTIONS && ask(page, asked)) {
            asked++;
        } else if (heard == asked) {
            pause();
        } else {
            if (!hear(page, heard)) whole = false;
            heard++;
        }
    }
    return whole;
}

/* Tells the screen about the page; gives the buffer, 0 if none is free. */
static uint16_t show(uint16_t page)
{
    unsigned words = 0, mistakes = 0, lines = text_lines(page);
    for (unsigned i = 0; i < lines; i++) {
        struct text_line line = text_line(page, i);
        struct text_word word;
        for (unsigned at = 0, n = 0; text_next_word(&line, &at, &word); n++, words++) mistakes += is_marked(marks[i], n);
    }
    uint16_t buffer, w[4] = {page, (uint16_t)lines, (uint16_t)words, (uint16_t)mistakes};
    return station_send(SCREEN, w, &buffer) == MONITOR_DONE ? buffer : 0;
}

/* Has the printer take a line of the page; false if it was cleaned. 'out' is whether it says that the page is out. */
static bool is_taken(uint16_t page, unsigned line, bool *out)
{
    uint16_t buffer, w[4] = {page, (uint16_t)line, marks[line].first, marks[line].second}, r[4];
    while (station_send(PRINTER, w, &buffer) != MONITOR_DONE) pause();
    if (station_wait_answer(buffer, r) != MONITOR_DONE || is_withdrawn(r)) return false;
    if (r[0] != page || r[1] != line) proofreader.wrong_answers++;
    *out = r[2] != 0;
    return true;
}

/* Has the page printed. A printer that was cleaned has forgotten the lines it had, and is told them again. */
static void print(uint16_t page)
{
    bool out = false;
    while (!out)
        for (unsigned line = 0; line < text_lines(page) && is_taken(page, line, &out); line++) continue;
}

void reader(void)
{
    uint16_t r[4];
    while (pages_out < proofreader.pages) {
        uint16_t page = (uint16_t)(pages_out + 1);
        if (!is_proofread(page)) continue;
        uint16_t shown = show(page);
        print(page);
        if (shown != 0) station_wait_answer(shown, r);
        pages_out = page;
    }
    station_end();
}
