/*
 * vectors DIRECT LAYOUT: runs outside test vectors through monitor_trap and monitor_layout and says
 * how many agreed. All numbers are hexadecimal; '-' stands for no words, '=' for 'as before'.
 *
 *     DIRECT, one call a line:   CALL A B W0W1W2W3 TABLE ROOM ANSWER TABLE-AFTER ROOM-AFTER SOUND
 *     LAYOUT, one layout a line: LIST TABLE ANSWER TABLE-AFTER EDITION COUNTERS
 *
 * Exits 1 if any line disagreed, 2 if one couldn't be read.
 */
#include <stdlib.h>
#include <string.h>

#include "trial.h"

enum { LINE_MOST = 40000, FIELDS_MOST = 10, ANSWER_DIGITS = 30 };

static _Noreturn void cannot_read(const char *what, unsigned line)
{
    fprintf(stderr, "vectors: line %u: %s can't be read\n", line, what);
    exit(2);
}

static unsigned digits(const char *text, unsigned count)
{
    char part[5] = "";
    memcpy(part, text, count);
    return (unsigned)strtoul(part, NULL, 16);
}

/* A field of words of four digits each, '-' for none. */
static void read_run(const char *field, unsigned line, struct run *run)
{
    size_t length = strcmp(field, "-") == 0 ? 0 : strlen(field);
    if (length % 4 != 0 || length / 4 > TABLE_MOST) cannot_read("a run of words", line);
    run->words = length / 4;
    for (size_t i = 0; i < run->words; i++) run->word[i] = (uint16_t)digits(field + 4 * i, 4);
}

static void read_after(const char *field, unsigned line, const struct run *before,
                       struct run *after)
{
    if (strcmp(field, "=") == 0)
        *after = *before;
    else
        read_run(field, line, after);
}

static void read_words(const char *field, uint16_t *word)
{
    for (unsigned i = 0; i < 4; i++) word[i] = (uint16_t)digits(field + 4 * i, 4);
}

static void read_answer(const char *field, unsigned line, struct monitor_registers *r)
{
    if (strlen(field) != ANSWER_DIGITS) cannot_read("an answer", line);
    r->number = (uint16_t)digits(field, 2);
    r->kind = (uint16_t)digits(field + 2, 4);
    r->buffer = (uint16_t)digits(field + 6, 4);
    r->current = (uint16_t)digits(field + 10, 4);
    read_words(field + 14, r->r);
}

/* Whether the archive takes the table for sound: a listing of process 0 is refused either way, with
 * 1 if the table is not sound and with 4 if it is. */
static bool taken_for_sound(const struct trial *trial)
{
    static struct trial asked;
    static struct outcome outcome;
    asked.table = trial->table;
    asked.registers = (struct monitor_registers){.call = MONITOR_LIST, .a = 0};
    by_archive(&asked, &outcome);
    return outcome.registers.number == MONITOR_NO_SUCH_PROCESS;
}

static bool direct_agrees(char **field, unsigned line)
{
    static struct trial trial;
    static struct outcome wanted, given;
    struct monitor_registers *r = &trial.registers;
    r->call = (uint16_t)digits(field[0], 4);
    r->a = (uint16_t)digits(field[1], 4);
    r->b = (uint16_t)digits(field[2], 4);
    if (strlen(field[3]) != 16) cannot_read("a message", line);
    read_words(field[3], r->w);
    read_run(field[4], line, &trial.table);
    read_run(field[5], line, &trial.room);
    wanted.registers = *r;
    read_answer(field[6], line, &wanted.registers);
    read_after(field[7], line, &trial.table, &wanted.table);
    read_after(field[8], line, &trial.room, &wanted.room);
    by_archive(&trial, &given);
    return same_outcome(&wanted, &given) && taken_for_sound(&trial) == (field[9][0] == '1');
}

static bool layout_agrees(char **field, unsigned line)
{
    static struct trial trial = {.layout = true};
    static struct outcome wanted, given;
    read_run(field[0], line, &trial.list);
    read_run(field[1], line, &trial.table);
    read_answer(field[2], line, &wanted.registers);
    read_after(field[3], line, &trial.table, &wanted.table);
    if (strlen(field[4]) != 4) cannot_read("an edition", line);
    trial.edition = (uint16_t)digits(field[4], 4);
    read_run(field[5], line, &trial.counters);
    by_archive(&trial, &given);
    return same_outcome(&wanted, &given);
}

/* Runs one file; gives whether all its lines agreed. */
static bool run_file(const char *path, unsigned fields, bool agrees(char **field, unsigned line))
{
    static char text[LINE_MOST];
    unsigned line = 0, agreed = 0;
    FILE *file = fopen(path, "r");
    if (file == NULL) {
        perror(path);
        exit(2);
    }
    while (fgets(text, sizeof text, file) != NULL) {
        char *field[FIELDS_MOST];
        unsigned found = 0;
        line++;
        for (char *part = strtok(text, " \n"); part != NULL; part = strtok(NULL, " \n"))
            if (found < FIELDS_MOST) field[found++] = part;
        if (found != fields) cannot_read("the number of fields", line);
        if (agrees(field, line))
            agreed++;
        else
            printf("%s: line %u disagrees\n", path, line);
    }
    fclose(file);
    printf("%s: %u of %u agreed\n", path, agreed, line);
    return line > 0 && agreed == line;
}

int main(int count, char **argument)
{
    if (count != 3) {
        fputs("usage: vectors DIRECT LAYOUT\n", stderr);
        return 2;
    }
    bool direct = run_file(argument[1], 10, direct_agrees);
    bool layout = run_file(argument[2], 6, layout_agrees);
    return direct && layout ? 0 : 1;
}
