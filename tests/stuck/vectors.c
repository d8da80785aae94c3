/*
 * vectors FILE: runs outside test vectors of docs/MONITOR.md, 17.1 through monitor_stuck and says how many
 * agreed. A case a line, numbers decimal:
 *
 *     {"table": [..], "p": 2, "room": [..], "answer": [number, count, true or false], "room_after": [..]}
 *
 * The vectors' tables have each buffer's age in its word 5 (docs/MONITOR.md, 10). Exits 1 if a case disagreed
 * or none was run, 2 if the file or a line couldn't be read.
 */
#include <ctype.h>
#include <stdlib.h>
#include <string.h>

#include "lending.h"

enum { LINE_MOST = 40000 };

/* The line being read. */
static unsigned line;
static const char *at;

static _Noreturn void cannot_read(const char *what)
{
    fprintf(stderr, "vectors: line %u: %s can't be read\n", line, what);
    exit(2);
}

/* Passes over the text, which must come next, and blanks before it. */
static void take(const char *text)
{
    while (*at == ' ') at++;
    size_t length = strlen(text);
    if (strncmp(at, text, length) != 0) cannot_read("its shape");
    at += length;
}

static unsigned take_number(void)
{
    while (*at == ' ') at++;
    if (!isdigit((unsigned char)*at)) cannot_read("a number");
    char *end;
    unsigned long number = strtoul(at, &end, 10);
    if (number > 0xFFFF) cannot_read("a word");
    at = end;
    return (unsigned)number;
}

static bool take_bool(void)
{
    while (*at == ' ') at++;
    bool is = strncmp(at, "true", 4) == 0;
    take(is ? "true" : "false");
    return is;
}

static void take_run(struct run *run)
{
    take("[");
    run->words = 0;
    while (*at != ']') {
        if (run->words > 0) take(",");
        if (run->words == TABLE_MOST) cannot_read("a run of words");
        run->word[run->words++] = (uint16_t)take_number();
    }
    take("]");
}

static void take_case(struct question *question, struct reply *wanted)
{
    take("{\"table\":");
    take_run(&question->table);
    take(", \"p\":");
    question->process = (uint16_t)take_number();
    take(", \"room\":");
    take_run(&question->room);
    take(", \"answer\": [");
    wanted->report[0] = (uint16_t)take_number();
    take(",");
    wanted->report[1] = (uint16_t)take_number();
    take(",");
    wanted->report[2] = take_bool();
    take("], \"room_after\":");
    take_run(&wanted->room);
    take("}\n");
    if (*at != '\0') cannot_read("the end");
}

int main(int count, char **argument)
{
    static char text[LINE_MOST];
    static struct question question;
    static struct reply wanted, given;
    unsigned agreed = 0;
    if (count != 2) {
        fputs("usage: vectors FILE\n", stderr);
        return 2;
    }
    const char *path = argument[1];
    FILE *file = fopen(path, "r");
    if (file == NULL) {
        perror(path);
        return 2;
    }
    while (fgets(text, sizeof text, file) != NULL) {
        line++;
        at = text;
        take_case(&question, &wanted);
        ask_archive(&question, &given);
        if (same_reply(&wanted, &given))
            agreed++;
        else
            printf("%s: line %u disagrees\n", path, line);
    }
    fclose(file);
    printf("%s: %u of %u agreed\n", path, agreed, line);
    return line > 0 && agreed == line ? 0 : 1;
}
