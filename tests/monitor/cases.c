/* Outside vectors with a case a line. Assumes the blanks that the files have: one behind a colon or a comma. */
#define _POSIX_C_SOURCE 200809L
#include "cases.h"

#include <stdlib.h>
#include <string.h>
#include <sys/types.h>

static unsigned line_number;

static _Noreturn void cannot_read(const char *what)
{
    fprintf(stderr, "vectors: line %u: %s can't be read\n", line_number, what);
    exit(2);
}

/* What stands behind a key. */
static const char *behind(const char *line, const char *key)
{
    char spelled[32];
    snprintf(spelled, sizeof spelled, "\"%s\": ", key);
    const char *at = strstr(line, spelled);
    if (at == NULL) cannot_read(key);
    return at + strlen(spelled);
}

static long number_at(const char **at, const char *key)
{
    char *end;
    long number = strtol(*at, &end, 10);
    if (end == *at) cannot_read(key);
    *at = end;
    return number;
}

FILE *open_cases(int arguments, char **argument)
{
    FILE *file = arguments == 2 ? fopen(argument[1], "r") : NULL;
    if (file == NULL) {
        fprintf(stderr, "vectors: %s\n", arguments == 2 ? "the file can't be opened" : "name a file");
        exit(2);
    }
    return file;
}

const char *next_case(FILE *file)
{
    static char *line;
    static size_t room;
    if (getline(&line, &room, file) > 0) {
        line_number++;
        return line;
    }
    free(line);
    fclose(file);
    return NULL;
}

unsigned case_number(void)
{
    return line_number;
}

long read_number(const char *line, const char *key)
{
    const char *at = behind(line, key);
    return number_at(&at, key);
}

size_t read_list(const char *line, const char *key, long *into, size_t most)
{
    const char *at = behind(line, key);
    size_t count = 0;
    unsigned depth = 0;
    if (*at != '[') cannot_read(key);
    do {
        if (*at == '[') {
            depth++, at++;
        } else if (*at == ']') {
            depth--, at++;
        } else if (*at == ',') {
            at++;
        } else {
            if (count == most) cannot_read(key);
            into[count++] = number_at(&at, key);
        }
        while (*at == ' ') at++;
    } while (depth > 0);
    return count;
}

void read_exactly(const char *line, const char *key, long *into, size_t count)
{
    if (read_list(line, key, into, count) != count) cannot_read(key);
}

int cases_told(unsigned disagreed, const char *what)
{
    if (line_number == 0) {
        fputs("vectors: there is no case in the file\n", stderr);
        return 2;
    }
    printf("%u of %u %s agree.\n", line_number - disagreed, line_number, what);
    return disagreed != 0;
}
