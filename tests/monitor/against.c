/*
 * against [--calls N] [--seed S]: runs the archive's monitor_trap (or monitor_trap_walked, and then
 * compares the walk too) and monitor_layout beside the second implementation and compares answer,
 * table, room and registers word by word after every call. The same seed gives the same calls on every machine.
 *
 * Stretches of calls go on one table, laid out or put in any sound state; between them come calls on
 * spoiled copies of it, and layouts good and bad. Exits 1 at the first difference, which it prints
 * as two lines that 'vectors' reads, and 1 if a refusal never came up, or a tick never met a buffer of
 * one of the first or last two ages in one of the standings, or something of the two editions or of the
 * semaphores.
 */
#define _POSIX_C_SOURCE 200809L
#include <signal.h>
#include <stdlib.h>
#include <string.h>
#include <unistd.h>

#include "draw.h"
#include "editions.h"
#include "make.h"
#include "second.h"
#include "semaphores.h"

enum { REFUSALS = MONITOR_COUNTER_FULL + 1, STRETCH_MOST = 150, PROGRESS = 50000, PROGRESS_TERMINAL = 2000 };

/* So many calls must bring everything up; of a shorter run it is only told what did not. */
enum { REACHES_ALL = 50000 };

/* The run's figures: calls compared, calls wanted, refusals by number, accepted calls by number. */
static unsigned long long seed = 1;
static unsigned long done, wanted = 250000, refused[REFUSALS], accepted[CALL_NUMBERS],
    unsound;

/* The longest walks seen: together by one tick, and by one entry. */
static unsigned tick_passed, most;

/* How often an accepted tick met a buffer of each age at an edge, by its standing. */
enum { EDGES = 4 };
static const uint16_t edge[EDGES] = {0, 1, 0xFFFE, 0xFFFF};
static unsigned long met[MONITOR_ORPHANED + 1][EDGES];

/* The trial in hand, and what came of it. */
static struct trial trial;
static struct outcome archive, second;

static void print_walk(const struct monitor_walk *w)
{
    if (!walk_told) return;
    printf("its walk: %u entered, %u passed, %u the most, %u by the move\n", w->entries, w->passed,
           w->most, w->moved);
}

static _Noreturn void differ(const char *how)
{
    printf("\nDIFFERENCE: %s\nseed %llu, call %lu, a %s\n", how, seed, done,
           trial.layout ? "layout" : "call");
    printf("as the second implementation has it:\n");
    write_line(stdout, &trial, &second);
    print_walk(&second.walk);
    printf("as the archive has it:\n");
    write_line(stdout, &trial, &archive);
    print_walk(&archive.walk);
    printf("Either line can be put in a file and run with 'vectors'.\n");
    exit(1);
}

/* The archive touched a word that wasn't lent. */
static void on_fault(int signal)
{
    (void)signal;
    printf("\nDIFFERENCE: the archive touched a word that wasn't lent (or divided by zero)\n");
    printf("seed %llu, call %lu\n", seed, done);
    write_line(stdout, &trial, &second);
    fflush(stdout);
    _exit(1);
}

static void show_progress(void)
{
    static int terminal = -1;
    if (terminal < 0) terminal = isatty(STDERR_FILENO);
    if (done % (terminal ? PROGRESS_TERMINAL : PROGRESS) != 0 && done != wanted) return;
    fprintf(stderr, terminal ? "\r%lu of %lu calls agree" : "%lu of %lu calls agree\n", done,
            wanted);
    if (terminal && done == wanted) fputc('\n', stderr);
}

/* Counts the ages at an edge that a tick meets. */
static void note_ages(const uint16_t *t)
{
    for (unsigned b = 1; b <= t[HEADER_B]; b++)
        for (unsigned i = 0; i < EDGES; i++)
            met[BUFFER(t, b, BUFFER_STANDING)][i] += BUFFER(t, b, BUFFER_AGE) == edge[i];
}

/* The fewest times that a tick met an open buffer of one standing and one age at an edge. */
static unsigned long fewest_met(void)
{
    unsigned long fewest = met[MONITOR_QUEUED][0];
    for (unsigned standing = MONITOR_QUEUED; standing <= MONITOR_ORPHANED; standing++)
        for (unsigned i = 0; i < EDGES; i++)
            if (met[standing][i] < fewest) fewest = met[standing][i];
    return fewest;
}

/* Does the trial in hand by both and compares; counts it. */
static void compare(void)
{
    by_second(&trial, &second);
    by_archive(&trial, &archive);
    if (archive.outside) differ("the archive wrote before a lent run, or to a list");
    if (!same_outcome(&second, &archive)) differ("the two don't agree");
    unsigned number = second.registers.number;
    refused[number]++;
    if (number == 0) accepted[trial.layout ? 0 : trial.registers.call]++;
    if (number == 0 && !trial.layout && trial.registers.call == MONITOR_TICK)
        note_ages(trial.table.word);
    note_editions(&trial, &second);
    note_semaphores(&trial, &second);
    if (second.walk.most > most) most = second.walk.most;
    if (trial.registers.call == MONITOR_TICK && second.walk.passed > tick_passed)
        tick_passed = second.walk.passed;
    if (number == 0 && !second_sound(second.table.word, second.table.words))
        differ("both leave a table that isn't sound");
    done++;
    show_progress();
}

/* A layout in one of the editions or another, into a table that is long enough or not, over words of
 * any kind. */
static void try_layout(void)
{
    trial.layout = true;
    if (chance(60))
        make_list(&trial.list);
    else
        make_bad_list(&trial.list);
    if (chance(80))
        make_counters(&trial.counters);
    else
        make_bad_counters(&trial.counters);
    trial.edition = chance(80) ? (uint16_t)below(2) : some_word();
    make_laid_out(&trial.table, &trial.list, &trial.counters);
    if (chance(30)) trial.table.words = below(TABLE_MOST + 1);
    if (chance(10)) trial.table.words -= trial.table.words > 0;
    for (size_t i = 0; i < trial.table.words; i++) trial.table.word[i] = some_word();
    compare();
    trial.layout = false;
    trial.list.words = trial.counters.words = 0;
}

/* A call on a spoiled copy of the table in hand, which stays as it was. */
static void try_spoiled(const struct mood *mood)
{
    static struct run kept;
    kept = trial.table;
    make_call(trial.table.word, mood, &trial.registers, &trial.room);
    spoil(&trial.table);
    unsound += !second_sound(trial.table.word, trial.table.words);
    compare();
    trial.table = kept;
}

/* A stretch of calls on one table. */
static void try_stretch(void)
{
    struct mood mood = make_mood();
    make_table(&trial.table);
    if (chance(60)) furnish(trial.table.word);
    for (unsigned left = 1 + below(STRETCH_MOST); left > 0 && done < wanted; left--) {
        if (chance(20)) {
            try_spoiled(&mood);
        } else {
            make_call(trial.table.word, &mood, &trial.registers, &trial.room);
            compare();
            trial.table = second.table;
        }
    }
}

/* Numbers 14 to 18 are refusals of the tools beside the monitor. */
static bool given_by_monitor(unsigned number)
{
    return number <= MONITOR_NO_SUCH_CALL || number >= MONITOR_NO_SUCH_SEMAPHORE;
}

/* Prints the figures; gives whether every refusal came up, every age at an edge, and all of the editions and of
 * the semaphores. */
static bool summary(void)
{
    bool all = fewest_met() != 0;
    printf("%lu calls compared, %lu of them on tables spoiled and not sound; all agree (seed %llu)\n",
           done, unsound, seed);
    printf("accepted: layout %lu", accepted[0]);
    for (unsigned call = 1; call < CALL_NUMBERS; call++) printf(", %02X %lu", call, accepted[call]);
    printf("\nrefused:");
    for (unsigned number = 1; number < REFUSALS; number++) {
        if (!given_by_monitor(number)) continue;
        printf("%s %u %lu", number == 1 ? "" : ",", number, refused[number]);
        all = all && refused[number] != 0;
    }
    printf("\nages: 0, 1, 65534 and 65535 met by a tick in each standing, %lu times or more\n",
           fewest_met());
    all = editions_told() && all;
    all = semaphores_told() && all;
    if (walk_told)
        printf("walks: one entry passed at most %u, those of one tick together %u\n", most,
               tick_passed);
    if (!all) printf("not everything came up: the run was too short to say much\n");
    return all;
}

static void read_options(int count, char **argument)
{
    for (int i = 1; i < count; i++) {
        char *end = "";
        if (i + 1 < count && strcmp(argument[i], "--calls") == 0)
            wanted = strtoul(argument[++i], &end, 10);
        else if (i + 1 < count && strcmp(argument[i], "--seed") == 0)
            seed = strtoull(argument[++i], &end, 10);
        else
            end = argument[i];
        if (*end == '\0') continue;
        fprintf(stderr, "usage: against [--calls N] [--seed S]\n");
        exit(2);
    }
}

int main(int count, char **argument)
{
    struct sigaction fault = {.sa_handler = on_fault};
    read_options(count, argument);
    sigaction(SIGSEGV, &fault, NULL);
    sigaction(SIGBUS, &fault, NULL);
    sigaction(SIGFPE, &fault, NULL);
    draw_from(seed);
    while (done < wanted) {
        if (chance(80)) try_layout();
        if (done < wanted) try_stretch();
    }
    return summary() || wanted < REACHES_ALL ? 0 : 1;
}
