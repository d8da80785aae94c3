/*
 * beside [--tables N] [--seed S]: asks the archive and the second implementation why tables aren't sound that are drawn
 * at random: in any sound state, spoiled in a way or several, or words of any kind. The same seed gives the same tables
 * on every machine. Exits 1 at the first difference, and 1 too if of a run that is long enough a clause was never told.
 */
#include <stdlib.h>
#include <string.h>

#include "asking.h"
#include "draw.h"
#include "make.h"

enum { COPIES = 12, PROGRESS = 100000, REACHES_ALL = 200000 };

static unsigned long long seed = 1;
static unsigned long done, wanted = 1000000;

static void ask(const struct run *table)
{
    if (!agree(table)) {
        printf("seed %llu, table %lu\n", seed, done);
        exit(1);
    }
    if (++done % PROGRESS == 0) fprintf(stderr, "%lu of %lu tables agree\n", done, wanted);
}

/* Several words written over, as by a program that has gone astray: in a row, or anywhere. */
static void write_over(struct run *table)
{
    size_t place = below((unsigned)table->words);
    bool row = chance(50);
    for (unsigned left = 1 + below(20); left > 0; left--) {
        table->word[place] = chance(50) ? (uint16_t)below(40) : some_word();
        place = row ? (place + 1) % table->words : below((unsigned)table->words);
    }
}

/* A sound table, and copies of it with something wrong. */
static void ask_around(void)
{
    static struct run table, copy;
    make_table(&table);
    if (chance(90)) furnish(table.word);
    ask(&table);
    for (unsigned left = 1 + below(COPIES); left > 0 && done < wanted; left--) {
        copy = table;
        if (chance(30)) write_over(&copy);
        else spoil(&copy);
        ask(&copy);
    }
}

static void read_options(int count, char **argument)
{
    for (int i = 1; i < count; i++) {
        char *end = "";
        if (i + 1 < count && strcmp(argument[i], "--tables") == 0) wanted = strtoul(argument[++i], &end, 10);
        else if (i + 1 < count && strcmp(argument[i], "--seed") == 0) seed = strtoull(argument[++i], &end, 10);
        else end = argument[i];
        if (*end == '\0') continue;
        fprintf(stderr, "usage: beside [--tables N] [--seed S]\n");
        exit(2);
    }
}

int main(int count, char **argument)
{
    unsigned clauses = 0;
    read_options(count, argument);
    watch_faults();
    draw_from(seed);
    while (done < wanted) ask_around();
    for (unsigned clause = 1; clause < CLAUSES; clause++) clauses += told[clause] != 0;
    printf("%lu tables asked of, %lu of them sound: all agree (seed %llu)\n", done, told[MONITOR_SOUND], seed);
    printf("%u of the %d clauses were told, the first record and word by both:", clauses, CLAUSES - 1);
    for (unsigned clause = 1; clause < CLAUSES; clause++) printf(" %u %lu%s", clause, told[clause], clause + 1 < CLAUSES ? "," : "\n");
    if (clauses < CLAUSES - 1) printf("not every clause came up: the run was too short to say much\n");
    return clauses == CLAUSES - 1 || wanted < REACHES_ALL ? 0 : 1;
}
