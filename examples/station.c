/*
 * A small station: a reader, a speller, a screen and a printer pass words to one another through the
 * monitor, and say what they do. Each process is a function that makes its next call whenever it is
 * current; the world around them (keys, the printer's paper, the clock, an operator) acts when none is.
 * With --log FILE it writes what was called and answered as a log, which ./explain tells. Assumes the archive: see
 * include/elvomike/monitor.h.
 *
 *     cc -Iinclude -o target/four examples/station.c target/staticlib/libtrap.a  in the repository
 *     cc -Iinclude -o station examples/station.c lib/libelvomike-trap.a          in the parcel
 */
#include "elvomike/calls.h"
#include "logfile.h"

#include <stdbool.h>
#include <stdio.h>
#include <stdlib.h>
#include <string.h>

enum { READER = 1, SPELLER, SCREEN, PRINTER, PROCESSES = 4, BUFFERS = 3 };
enum { KEYBOARD = 0, PAPER = 1, PATIENCE = 3, CLEANED = 0x8000 };

/* Priority, buffers and name of each process. */
static const uint16_t list[] = {
    4, 1, 'R' << 8 | 'E', 'A' << 8 | 'D', 0, /* READ */
    3, 2, 'S' << 8 | 'P', 'E' << 8 | 'L', 0, /* SPEL */
    2, 0, 'S' << 8 | 'C', 'R' << 8 | 'N', 0, /* SCRN */
    1, 0, 'P' << 8 | 'R', 'I' << 8 | 'N', 0, /* PRIN */
};
MONITOR_TABLE(station, PROCESSES, BUFFERS, 0);
static uint16_t room[MONITOR_LISTING_WORDS * BUFFERS];

/* A call was made: logs it. This station makes none that is refused. */
static void called(uint16_t number)
{
    log_called(&station.last, room);
    if (number == MONITOR_DONE) return;
    printf("Call %02X was refused: %s.\n", (unsigned)station.last.call, monitor_refusal_text(number));
    exit(1);
}

/* A word of up to eight letters goes in four 16-bit words. */
struct message { uint16_t words[4]; };

static struct message message_of(const char *letters)
{
    struct message message;
    char eight[9] = "";
    strncpy(eight, letters, 8);
    for (unsigned i = 0; i < 4; i++)
        message.words[i] = (uint16_t)((unsigned char)eight[2 * i] << 8 | (unsigned char)eight[2 * i + 1]);
    return message;
}

static const char *letters_of(const uint16_t *words)
{
    static char eight[9];
    for (unsigned i = 0; i < 8; i++) eight[i] = (char)(words[i / 2] >> (i % 2 ? 0 : 8));
    return eight;
}

static uint16_t send(uint16_t to, const char *letters)
{
    const struct monitor_sent sent = monitor_send(&station, to, message_of(letters).words);
    called(sent.number);
    return sent.buffer;
}

static void answer(uint16_t buffer, uint16_t first)
{
    const uint16_t words[4] = {first, 0, 0, 0};
    called(monitor_send_answer(&station, buffer, words).number);
}

static struct monitor_event_wait event(void)
{
    const struct monitor_event_wait wait = monitor_wait_event(&station, 0);
    called(wait.number);
    return wait;
}

static const char *const typed[] = {"teh", "cat", "recieves"};
static unsigned words_typed;

/* The reader: waits for a key, sends the word to the speller, and waits for what it says. */
static void reader(void)
{
    static enum { LISTENS, READS, ASKS } step;
    static uint16_t buffer;
    if (step == LISTENS) {
        printf("The reader waits for a key.\n");
        called(monitor_wait_interrupt(&station, KEYBOARD, 0).number);
        step = READS;
    } else if (step == READS) {
        buffer = send(SPELLER, typed[words_typed]);
        printf("The reader sends \"%s\" to the speller in buffer %u.\n", typed[words_typed++],
               (unsigned)buffer);
        step = ASKS;
    } else {
        const struct monitor_answer_wait heard = monitor_wait_answer(&station, buffer);
        called(heard.number);
        if (heard.waits) return;
        printf("The reader hears back: the word was %s.\n", heard.words[0] ? "put right" : "right");
        step = LISTENS;
    }
}

static const char *put_right(const char *word)
{
    if (strcmp(word, "teh") == 0) return "the";
    return strcmp(word, "recieves") == 0 ? "receives" : word;
}

/* The speller: puts a word right, sends it to screen and printer, and answers when both have. */
static void speller(void)
{
    static uint16_t held;
    static unsigned answers_due;
    static bool changed;
    const struct monitor_event_wait came = event();
    const char *word = letters_of(came.words), *right = put_right(word);
    if (came.kind == MONITOR_KIND_MESSAGE) {
        held = came.buffer;
        changed = strcmp(right, word) != 0;
        printf("The speller reads \"%s\" as \"%s\" and passes it on.\n", word, right);
        send(SCREEN, right);
        send(PRINTER, right);
        answers_due = 2;
    } else if (came.kind == MONITOR_KIND_ANSWER) {
        if (came.words[0] == CLEANED) printf("The speller is told that its listener was cleaned.\n");
        if (--answers_due != 0) return;
        answer(held, changed);
        printf("The speller answers the reader.\n");
    }
}

static void screen(void)
{
    const struct monitor_event_wait came = event();
    if (came.kind != MONITOR_KIND_MESSAGE) return;
    printf("The screen shows \"%s\".\n", letters_of(came.words));
    answer(came.buffer, 0);
}

/* The printer: takes a word, then waits for its paper, but not for ever. */
static void printer(void)
{
    static enum { IDLE, PRINTS, MOVED } step;
    static uint16_t held;
    if (step == IDLE) {
        const struct monitor_event_wait came = event();
        if (came.kind != MONITOR_KIND_MESSAGE) return;
        held = came.buffer;
        printf("The printer prints \"%s\" and waits for its paper to move.\n", letters_of(came.words));
        step = PRINTS;
    } else if (step == PRINTS) {
        called(monitor_wait_interrupt(&station, PAPER, PATIENCE).number);
        step = MOVED;
    } else {
        if (station.words[MONITOR_REASON_PLACE(PRINTER)] == MONITOR_WOKEN_BY_INTERRUPT)
            printf("The printer is done.\n");
        else
            printf("The printer gave up waiting: no paper moved, and the word is %u ticks old.\n",
                   (unsigned)station.words[MONITOR_AGE_PLACE(PROCESSES, held)]);
        answer(held, 0);
        step = IDLE;
    }
}

/* What the world does when no process runs: the paper moves once, sticks once, and then an operator
 * cleans the printer. False when there is nothing left to do. */
static bool world(void)
{
    const bool printing = station.words[MONITOR_DEVICE_PLACE(PAPER)] == PRINTER;
    if (!printing && words_typed == sizeof typed / sizeof typed[0]) return false;
    if (!printing) {
        printf("  (Someone types \"%s\".)\n", typed[words_typed]);
        called(monitor_interrupt(&station, KEYBOARD).number);
    } else if (words_typed == 1) {
        printf("  (The paper moves.)\n");
        called(monitor_interrupt(&station, PAPER).number);
    } else if (words_typed == 2) {
        printf("  (The clock ticks.)\n");
        called(monitor_tick(&station).number);
    } else {
        const struct monitor_cleaned cleaned = monitor_clean(&station, PRINTER);
        called(cleaned.number);
        printf("  (An operator cleans the printer: %u buffer changes its standing.)\n",
               (unsigned)cleaned.changed);
    }
    return true;
}

int main(int words, char **word)
{
    static void (*const program[])(void) = {NULL, reader, speller, screen, printer};
    log_begin(words, word);
    if (monitor_layout(list, sizeof list / 2, MONITOR_EDITION_FIRST, list, 0, station.words,
                       station.count) != MONITOR_DONE) /* no semaphores */
        return 1;
    log_laid_out(list, sizeof list / 2);
    for (uint16_t p = READER; p <= PRINTER; p++) called(monitor_start(&station, p).number);
    for (bool happens = true; happens;) {
        const uint16_t current = station.words[MONITOR_CURRENT_PLACE];
        if (current != 0) program[current]();
        else happens = world();
    }
    const struct monitor_listed listed = monitor_list(&station, SPELLER, room, sizeof room / 2);
    called(listed.number);
    printf("At the end %u of the speller's buffers are in use.\n", (unsigned)listed.rows);
    log_end();
    return 0;
}
