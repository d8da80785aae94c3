/* Files as bytes, and rows of holes. Assumes a hosted C library. */
#define _POSIX_C_SOURCE 200809L
#include "input.h"

#include <errno.h>
#include <stdarg.h>
#include <stdio.h>
#include <stdlib.h>
#include <string.h>
#include <sys/stat.h>
#include <unistd.h>

enum { FIRST_ROOM = 65536, HOLES = 8 };

_Noreturn void fail(const char *sentence, ...)
{
    va_list words;
    fprintf(stderr, "%s: ", command);
    va_start(words, sentence);
    vfprintf(stderr, sentence, words);
    va_end(words);
    fputc('\n', stderr);
    exit(2);
}

static FILE *opened(const char *name)
{
    struct stat what;
    if (name == NULL) {
        if (isatty(STDIN_FILENO)) fprintf(stderr, "%s: reading bytes from the keyboard; Control-D ends them.\n", command);
        return stdin;
    }
    if (stat(name, &what) == 0 && S_ISDIR(what.st_mode)) fail("'%s' is a folder, not a file.", name);
    FILE *file = fopen(name, "rb");
    if (file == NULL && errno == ENOENT) fail("there is no file '%s'.", name);
    if (file == NULL) fail("the file '%s' may not be read.", name);
    return file;
}

struct bytes read_whole(const char *name)
{
    FILE *file = opened(name);
    struct bytes all = {NULL, 0};
    size_t room = 0, got = 1;
    while (got > 0) {
        if (all.count + 1 >= room) {
            room = room == 0 ? FIRST_ROOM : 2 * room;
            all.byte = realloc(all.byte, room);
            if (all.byte == NULL) fail("'%s' is too large.", name ? name : "standard input");
        }
        got = fread(all.byte + all.count, 1, room - all.count - 1, file);
        all.count += got;
    }
    if (ferror(file)) fail("'%s' can't be read to its end.", name ? name : "standard input");
    if (file != stdin) fclose(file);
    all.byte[all.count] = 0;
    return all;
}

char *next_line(char **text)
{
    char *line = *text;
    if (*line == '\0') return NULL;
    size_t length = strcspn(line, "\n");
    *text = line + length + (line[length] == '\n');
    line[length] = '\0';
    if (length > 0 && line[length - 1] == '\r') line[length - 1] = '\0';
    return line;
}

struct bytes read_rows(const char *name)
{
    struct bytes text = read_whole(name), tape = {text.byte, 0};
    char *rest = (char *)text.byte, *line;
    for (unsigned number = 1; (line = next_line(&rest)) != NULL; number++) {
        unsigned row = 0;
        if (line[0] == '\0' || line[0] == '#') continue;
        for (unsigned i = 0; i < HOLES; i++) {
            if (line[i] != 'o' && line[i] != '.')
                fail("line %u of the tape is no row of eight holes, 'o' or '.' each.", number);
            row = row << 1 | (line[i] == 'o');
        }
        if (line[HOLES] != '\0' && line[HOLES] != ' ' && line[HOLES] != '\t')
            fail("line %u of the tape has more than eight holes.", number);
        tape.byte[tape.count++] = (uint8_t)row;
    }
    return tape;
}
