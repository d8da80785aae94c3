/*
 * vectors FILE: runs outside test vectors through the delay queue and says how many agreed. FILE has a run
 * a line, all numbers decimal, a step with what is fed, whom it wakes in order, and the delay left of each
 * process after it:
 *
 *     {"P": 2, "steps": [["wait", 1, 3, [], [3, 0]], ["tick", 0, 0, [], [2, 0]], ..]}
 *
 * Exits 1 if any run disagreed, 2 if one can't be read or there is none.
 */
#define _POSIX_C_SOURCE 200809L
#include <stdlib.h>
#include <string.h>
#include <sys/types.h>

#include "clock.h"

static unsigned line_number;
static unsigned long steps;

static _Noreturn void cannot_read(const char *what)
{
    fprintf(stderr, "vectors: line %u: %s can't be read\n", line_number, what);
    exit(2);
}

/* Goes behind a text that has to stand here, spaces and a comma before it left out. */
static void past(const char **at, const char *text)
{
    while (**at == ' ' || **at == ',') ++*at;
    if (strncmp(*at, text, strlen(text)) != 0) cannot_read(text);
    *at += strlen(text);
}

static long number_at(const char **at)
{
    char *end;
    while (**at == ' ' || **at == ',') ++*at;
    long number = strtol(*at, &end, 10);
    if (end == *at) cannot_read("a number");
    *at = end;
    return number;
}

/* The numbers of a list, into room for as many as there may be processes; gives their count. */
static size_t list_at(const char **at, uint16_t *into)
{
    size_t count = 0;
    past(at, "[");
    while (**at != ']') {
        if (count == MOST) cannot_read("a list");
        into[count++] = (uint16_t)number_at(at);
    }
    ++*at;
    return count;
}

static enum what what_at(const char **at)
{
    static const char *const name[] = {"\"wait\"", "\"wake\"", "\"stop\"", "\"clean\"", "\"tick\""};
    for (unsigned i = 0; i < sizeof name / sizeof name[0]; i++) {
        if (strncmp(*at, name[i], strlen(name[i])) != 0) continue;
        *at += strlen(name[i]);
        return (enum what)i;
    }
    cannot_read("what is fed");
}

static void step_at(const char **at, unsigned processes, struct event *event, struct outcome *expected)
{
    past(at, "[");
    event->what = what_at(at);
    event->process = (uint16_t)number_at(at);
    event->delay = (uint16_t)number_at(at);
    expected->woken = list_at(at, expected->who);
    if (list_at(at, expected->left + 1) != processes) cannot_read("the delays left");
    past(at, "]");
}

/* Whether the steps of a line agree; tells the first that doesn't. */
static bool run(const char *at)
{
    const uint16_t other[WORDS_MOST] = {9, 9, 9};
    struct outcome expected, outcome;
    struct event event;
    past(&at, "{\"P\":");
    const unsigned processes = (unsigned)number_at(&at);
    const struct queue queue = lend_queue(other, DELAYS_WORDS(processes));
    if (delays_make(queue.word, queue.words, (uint16_t)processes) != DELAYS_DONE) return false;
    past(&at, "\"steps\": [");
    for (unsigned step = 1; *at != ']'; step++, steps++) {
        step_at(&at, processes, &event, &expected);
        uint16_t number = queue_feed(&queue, &event, processes, &outcome);
        if (number == DELAYS_DONE && same_outcome(processes, &expected, &outcome) && !outside_written() &&
            delays_shown(queue.word, queue.words))
            continue;
        printf("DIFFERENCE in line %u, step %u, number %u\nas the vector has it: ", line_number, step,
               (unsigned)number);
        write_outcome(stdout, processes, &expected);
        printf("as it came out:       ");
        write_outcome(stdout, processes, &outcome);
        return false;
    }
    return true;
}

int main(int arguments, char **argument)
{
    unsigned disagreed = 0;
    char *line = NULL;
    size_t room = 0;
    FILE *file = arguments == 2 ? fopen(argument[1], "r") : NULL;
    if (file == NULL) {
        fprintf(stderr, "vectors: %s\n", arguments == 2 ? "the file can't be opened" : "name a file");
        return 2;
    }
    while (getline(&line, &room, file) > 0) {
        line_number++;
        if (!run(line)) disagreed++;
    }
    fclose(file);
    free(line);
    if (steps == 0) {
        fputs("vectors: there is no step in the file\n", stderr);
        return 2;
    }
    printf("%u of %u runs agree, %lu steps.\n", line_number - disagreed, line_number, steps);
    return disagreed != 0;
}
