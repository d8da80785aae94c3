/*
 * beside [--tables N] [--seed S]: runs the archive's monitor_stuck and monitor_rings beside the
 * second reading of docs/MONITOR.md, 17.1, on sound tables in any state and on spoiled ones, for every
 * process and rooms of every length, and compares report, room and table word by word. Then stops or
 * cleans a member of a ring, by the archive: that ring must be gone and every other stay. The same
 * seed gives the same tables on every machine.
 *
 * Exits 1 at the first difference, which it prints, and 1 if something that should come up did not.
 */
#define _POSIX_C_SOURCE 200809L
#include <signal.h>
#include <stdlib.h>
#include <string.h>
#include <unistd.h>

#include "draw.h"
#include "lending.h"
#include "make.h"
#include "second.h"
#include "second_moves.h"
#include "second_waits.h"

enum { REFUSALS = 11, PROGRESS = 2000, PROGRESS_TERMINAL = 100 };

/* The run's figures. */
static unsigned long long seed = 1;
static unsigned long done, wanted = 10000, asked, refused[REFUSALS], ended, in_ring, behind_ring,
    with_rings, with_many, freed;

/* The question in hand, and what came of it. */
static struct question question;
static struct reply archive, second;

static _Noreturn void differ(const char *how)
{
    printf("\nDIFFERENCE: %s\nseed %llu, table %lu\n", how, seed, done);
    printf("as the second reading has it: ");
    write_reply(stdout, &question, &second);
    printf("as the archive has it: ");
    write_reply(stdout, &question, &archive);
    exit(1);
}

/* The archive touched a word that wasn't lent. */
static void on_fault(int signal)
{
    (void)signal;
    printf("\nDIFFERENCE: the archive touched a word that wasn't lent (or divided by zero)\n");
    printf("seed %llu, table %lu\n", seed, done);
    write_reply(stdout, &question, &second);
    fflush(stdout);
    _exit(1);
}

static void show_progress(void)
{
    static int terminal = -1;
    if (terminal < 0) terminal = isatty(STDERR_FILENO);
    if (done % (terminal ? PROGRESS_TERMINAL : PROGRESS) != 0 && done != wanted) return;
    fprintf(stderr, terminal ? "\r%lu of %lu tables agree" : "%lu of %lu tables agree\n", done,
            wanted);
    if (terminal && done == wanted) fputc('\n', stderr);
}

/* A room of any length up to a bit more than is ever needed, mostly enough, with any words in it. */
static void make_room(void)
{
    question.room.words = chance(30) ? below(MONITOR_RINGS_WORDS_MOST + 4) : MONITOR_RINGS_WORDS_MOST;
    for (size_t i = 0; i < question.room.words; i++) question.room.word[i] = some_word();
}

/* Puts the question in hand to both and compares; counts it. */
static void compare(void)
{
    ask_second(&question, &second);
    ask_archive(&question, &archive);
    if (!same_reply(&second, &archive)) differ("the two don't agree");
    asked++;
    unsigned number = second.report[0];
    refused[number]++;
    if (number != 0) return;
    if (question.rings) {
        with_rings += second.report[1] > 0;
        with_many += second.report[1] > 1;
    } else if (second.report[2] == 0) {
        ended++;
    } else if (second_awaits_itself(question.table.word, question.process)) {
        in_ring++;
    } else {
        behind_ring++;
    }
}

static void ask_all(unsigned processes)
{
    question.rings = true;
    make_room();
    compare();
    question.rings = false;
    for (unsigned p = 0; p <= processes + 1; p++) {
        question.process = (uint16_t)(p == 0 && chance(30) ? some_word() : p);
        make_room();
        compare();
    }
}

/* After a stop or a clean of x, who waits for itself did so before, and not in x's ring; and the
 * others still do. */
static void set_free(unsigned x)
{
    static uint16_t after[TABLE_MOST];
    const uint16_t *before = question.table.word;
    struct monitor_registers r = {.call = chance(50) ? MONITOR_STOP : MONITOR_CLEAN, .a = (uint16_t)x};
    memcpy(after, before, sizeof after);
    monitor_trap(after, question.table.words, question.room.word, question.room.words, &r);
    if (r.number != MONITOR_DONE) differ("a member of a ring can't be stopped or cleaned");
    for (unsigned y = 1; y <= before[HEADER_P]; y++) {
        bool of_ring = false;
        for (unsigned links = 1; links <= before[HEADER_P]; links++)
            of_ring = of_ring || second_after_links(before, y, links) == x;
        if (second_awaits_itself(after, y) != (second_awaits_itself(before, y) && !of_ring))
            differ("a stop or a clean of a member didn't end its ring, or changed another");
    }
    freed++;
}

/* Whom p is to wait for: anybody, the next, one of a few, or its partner; 0 for nobody. */
static unsigned choose_holder(unsigned p, unsigned processes, unsigned plan)
{
    unsigned q = plan == 0   ? 1 + below(processes)
                 : plan == 1 ? p % processes + 1
                 : plan == 2 ? 1 + below(1 + processes / 8)
                             : ((p - 1) ^ 1) + 1;
    return q == p || q > processes ? 0 : q;
}

/* p waits for the answer in its buffer b, which q is to give. */
static void wait_behind(uint16_t *t, unsigned p, unsigned b, unsigned q)
{
    bool queued = chance(50);
    BUFFER(t, b, BUFFER_STANDING) = queued ? MONITOR_QUEUED : MONITOR_HELD;
    BUFFER(t, b, BUFFER_RECEIVER) = (uint16_t)q;
    if (queued) append(t, q, b);
    PROCESS(t, p, PROCESS_STATE) = MONITOR_STATE_WAITS_ANSWER;
    PROCESS(t, p, PROCESS_AWAITED) = (uint16_t)b;
}

/* Most processes of a table just laid out are put to wait for an answer, by a plan; of the others
 * some run. */
static void knot(uint16_t *t)
{
    unsigned processes = t[HEADER_P], plan = below(4), most = 50 + below(51);
    for (unsigned p = 1; p <= processes; p++) {
        unsigned q = choose_holder(p, processes, plan), owns = PROCESS(t, p, PROCESS_OWNS);
        if (q == 0 || owns == 0 || !chance(most)) continue;
        wait_behind(t, p, PROCESS(t, p, PROCESS_OWN) + below(owns), q);
    }
    for (unsigned p = 1; p <= processes; p++)
        if (PROCESS(t, p, PROCESS_STATE) == MONITOR_STATE_STOPPED && chance(50)) wake(t, p, below(4));
}

/* The longest chains: so many processes with a buffer each, each behind the next, and the last stopped or behind the first. */
static void try_longest(bool ring)
{
    struct run list = {.words = MONITOR_ENTRY_WORDS * MONITOR_PROCESSES_MOST}, counters = {.words = 0};
    for (unsigned p = 1; p <= MONITOR_PROCESSES_MOST; p++) {
        uint16_t *entry = list.word + MONITOR_ENTRY_WORDS * (p - 1);
        entry[0] = entry[1] = 1;
        entry[2] = (uint16_t)(0x4100 + p);
    }
    make_laid_out(&question.table, &list, &counters);
    for (unsigned p = 1; p <= MONITOR_PROCESSES_MOST; p++)
        if (ring || p < MONITOR_PROCESSES_MOST)
            wait_behind(question.table.word, p, p, p % MONITOR_PROCESSES_MOST + 1);
    ask_all(MONITOR_PROCESSES_MOST);
}

static void try_table(void)
{
    static struct run kept;
    make_table(&question.table);
    if (chance(60))
        knot(question.table.word);
    else
        furnish(question.table.word);
    unsigned processes = question.table.word[HEADER_P];
    ask_all(processes);
    for (unsigned p = 1; p <= processes; p++)
        if (second_awaits_itself(question.table.word, p) && chance(50)) set_free(p);
    if (chance(50)) {
        kept = question.table;
        spoil(&question.table);
        ask_all(1);
        question.table = kept;
    }
    done++;
    show_progress();
}

/* Prints the figures; gives whether everything came up that should. */
static bool summary(void)
{
    printf("%lu tables, %lu questions; all agree (seed %llu)\n", done, asked, seed);
    printf("chains: %lu end, %lu go round, %lu run into a ring; stations: %lu with rings, %lu with "
           "several; rings ended: %lu\n",
           ended, in_ring, behind_ring, with_rings, with_many, freed);
    printf("refused: 1 %lu, 4 %lu, 7 %lu, 10 %lu\n", refused[1], refused[4], refused[7], refused[10]);
    bool all = refused[1] && refused[4] && refused[7] && refused[10] && ended && in_ring &&
               behind_ring && with_many && freed;
    if (!all) printf("not everything came up: the run was too short to say much\n");
    return all;
}

static void read_options(int count, char **argument)
{
    for (int i = 1; i < count; i++) {
        char *end = "";
        if (i + 1 < count && strcmp(argument[i], "--tables") == 0)
            wanted = strtoul(argument[++i], &end, 10);
        else if (i + 1 < count && strcmp(argument[i], "--seed") == 0)
            seed = strtoull(argument[++i], &end, 10);
        else
            end = argument[i];
        if (*end == '\0') continue;
        fprintf(stderr, "usage: beside [--tables N] [--seed S]\n");
        exit(2);
    }
}

int main(int count, char **argument)
{
    struct sigaction fault = {.sa_handler = on_fault};
    read_options(count, argument);
    sigaction(SIGSEGV, &fault, NULL);
    sigaction(SIGBUS, &fault, NULL);
    sigaction(SIGFPE, &fault, NULL);
    draw_from(seed);
    try_longest(false);
    try_longest(true);
    while (done < wanted) try_table();
    return summary() ? 0 : 1;
}
