/*
 * The proofreader over one monitor or another, for bench/rates: the pages it prints are held to those that a plain
 * sequential proofreader prints, and what goes wrong is counted.
 *
 *     rates TEXT PRINTED PAGES CLEANS SEED
 *
 * PRINTED is what should be printed of TEXT's pages, once each; no line of TEXT is empty. Writes one line, words and
 * numbers by turns: what was counted, or in which page a tick found that the table isn't sound, and the station halted.
 * Assumes that it is linked with examples/proofreader, the port for this PC, and a monitor.
 */
#include <stdio.h>
#include <stdlib.h>
#include <string.h>

#include "pc.h"
#include "proofreader.h"

enum { PRINTED_MOST = 1 << 16 };

static struct {
    unsigned long wrong, doubled, stuck, unclaimed, vain;
} counts;

static const char **due; /* what each page of the text should be printed as, from behind its number */
static unsigned char times_printed[PAGES_MOST + 1];
static char page[PRINTED_MOST]; /* what has come out of the page that is printed */
static size_t page_bytes;

static _Noreturn void fail(const char *what)
{
    fprintf(stderr, "rates: %s\n", what);
    exit(2);
}

static char *read_file(const char *name, size_t *bytes)
{
    FILE *file = fopen(name, "rb");
    if (file == NULL || fseek(file, 0, SEEK_END) != 0) fail("a file can't be read.");
    *bytes = (size_t)ftell(file);
    rewind(file);
    char *all = malloc(*bytes + 1);
    if (all == NULL || fread(all, 1, *bytes, file) != *bytes) fail("a file can't be read.");
    all[*bytes] = 0;
    fclose(file);
    return all;
}

/* Cuts what should be printed at its empty lines; of each page what stands behind its number. */
static void take_due(char *all)
{
    due = calloc(text_pages() + 1, sizeof *due);
    for (unsigned n = 0; due != NULL && n < text_pages(); n++) {
        char *end = strstr(all, "\n\n"), *rest = strchr(all, ',');
        if (end == NULL || rest == NULL) fail("there are fewer printed pages than the text has.");
        *end = 0;
        due[n] = rest;
        all = end + 2;
    }
}

/* A page is out: its number, and then what is printed in it. */
static void judge(void)
{
    char *rest;
    unsigned long number = strtoul(page + strlen("PAGE "), &rest, 10);
    if (number < 1 || number > proofreader.pages) fail("a page has a number that no page has.");
    if (times_printed[number] < 2) times_printed[number]++;
    counts.doubled += times_printed[number] > 1;
    counts.wrong += strcmp(rest, due[(number - 1) % text_pages()]) != 0;
}

void pc_paper(const char *line)
{
    size_t bytes = strlen(line);
    if (bytes == 0) {
        judge();
        page_bytes = 0;
        return;
    }
    if (page_bytes + bytes + 2 > sizeof page) fail("a page is too long.");
    if (page_bytes > 0) page[page_bytes++] = '\n';
    memcpy(page + page_bytes, line, bytes + 1);
    page_bytes += bytes;
}

void pc_screen(const char *line) { (void)line; }

void port_halt(const char *why)
{
    (void)why; /* over these monitors it is a table that is not sound */
    printf("halted %lu\n", (unsigned long)proofreader.printed + 1);
    exit(0);
}

static unsigned word_of(size_t place) { return proofreader_station.table[place]; }

static unsigned standing_of(unsigned b) { return word_of(MONITOR_STANDING_PLACE(PROCESSES, b)); }

/* Whether p waits for what is there already, or can't come: its event queue isn't empty, or its buffer isn't open. */
static bool is_left_waiting(unsigned p)
{
    unsigned state = word_of(MONITOR_STATE_PLACE(p));
    if (state == MONITOR_STATE_WAITS_EVENT) return word_of(MONITOR_FIRST_EVENT_PLACE(p)) != 0;
    if (state != MONITOR_STATE_WAITS_ANSWER) return false;
    unsigned standing = standing_of(word_of(MONITOR_AWAITED_BUFFER_PLACE(p)));
    return standing != MONITOR_QUEUED && standing != MONITOR_HELD;
}

/* Counts those who were left waiting until they were cleaned. */
static void count_stuck(const struct monitor_registers *done)
{
    static bool left[PROCESSES + 1];
    if (done->call == MONITOR_CLEAN && left[done->a]) {
        counts.stuck++;
        left[done->a] = false;
    }
    for (unsigned p = READER; p < OPERATOR; p++) left[p] = is_left_waiting(p);
}

/* When the reader asks about a page's first line, none of its other buffers should be in use but those that others hold
 * as orphans. Counts each that is, once until it is free again. */
static void count_unclaimed(const struct monitor_registers *done)
{
    static bool counted[BUFFERS + 1];
    if (done->call != MONITOR_SEND || done->a != SPELLER || done->w[2] != 0) return;
    for (unsigned b = 1; b <= READER_BUFFERS; b++) {
        bool is_open = standing_of(b) != MONITOR_FREE && standing_of(b) != MONITOR_ORPHANED && b != done->buffer;
        counts.unclaimed += is_open && !counted[b];
        counted[b] = is_open;
    }
}

/* Counts waits for an answer that were asked for again for nothing: the reader was woken, and its answer wasn't there. */
static void count_vain(const struct monitor_registers *done)
{
    static uint16_t waited; /* the buffer that the reader last waited for, 0 where its answer came, or it was cleaned or sent again */
    if ((done->call == MONITOR_CLEAN && done->a == READER) || (done->call == MONITOR_SEND && done->buffer == waited)) waited = 0;
    if (done->call != MONITOR_WAIT_ANSWER) return; /* only the reader makes it */
    bool waits = done->kind == MONITOR_KIND_WAITS;
    counts.vain += waits && waited == done->a;
    waited = waits ? done->a : 0;
}

void port_laid_out(const uint16_t *list, size_t words) { (void)list, (void)words; }

void port_noted(const struct monitor_registers *done, const uint16_t *room)
{
    (void)room;
    if (done->number != MONITOR_DONE) return;
    count_stuck(done);
    count_unclaimed(done);
    count_vain(done);
}

static unsigned long count_lost(void)
{
    unsigned long lost = 0;
    for (unsigned n = 1; n <= proofreader.pages; n++) lost += times_printed[n] == 0;
    return lost;
}

int main(int words, char **word)
{
    static const char *list[BUILT_IN_WORDS_MOST];
    size_t bytes;
    if (words != 6) fail("TEXT PRINTED PAGES CLEANS SEED are wanted.");
    const char *text = read_file(word[1], &bytes);
    if (!text_take(text, bytes)) fail("the text can't be taken.");
    take_due(read_file(word[2], &bytes));
    proofreader.pages = (uint16_t)strtoul(word[3], NULL, 10);
    proofreader.cleans = (uint32_t)strtoul(word[4], NULL, 10);
    pc.seed = (uint32_t)strtoul(word[5], NULL, 10);
    proofreader.seed = 1 + pc_drawn(UINT32_MAX - 1);
    proofreader.words = list;
    proofreader.word_count = built_in_words(list);
    station_run(&proofreader_station);
    printf("pages %u wrong %lu lost %lu doubled %lu stuck %lu unclaimed %lu vain %lu", (unsigned)proofreader.pages, counts.wrong, count_lost(),
           counts.doubled, counts.stuck, counts.unclaimed, counts.vain);
    printf(" answers %lu standstills %lu cleans %lu ticks %lu\n",
           (unsigned long)proofreader.wrong_answers, (unsigned long)proofreader.standstills, (unsigned long)proofreader.cleaned,
           (unsigned long)station_ticks());
    return 0;
}
