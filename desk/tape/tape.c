/*
 * ./tape: the paper tape reader's input operation, for a person to try. The operation is the proved one
 * of the archive; here the words of the command are read, the files, and what happened is told.
 */
#include "elvomike/tape.h"

#include <ctype.h>
#include <errno.h>
#include <stdbool.h>
#include <stdio.h>
#include <stdlib.h>
#include <string.h>

#include "input.h"
#include "table.h"

const char *const command = "tape";

/* What the command asks for. */
struct asked {
    uint16_t mode;
    int32_t base;
    const char *table, *tape;
    bool area_given, rows;
    size_t area;
};

static long long number_in(const char *text, long long least, long long most, const char *what)
{
    char *end;
    errno = 0;
    long long number = strtoll(text, &end, 10);
    if (*text == '\0' || *end != '\0') fail("'%s' is no number; %s is one.", text, what);
    if (errno != 0 || number < least || number > most)
        fail("%s %s is outside %lld to %lld.", what, text, least, most);
    return number;
}

/* The word behind an option. */
static const char *behind(char **argument, const char *what)
{
    if (argument[1] == NULL) fail("%s wants %s behind it.", argument[0], what);
    return argument[1];
}

static struct asked read_words(char **argument)
{
    struct asked asked = {0};
    bool mode_given = false, options = true;
    for (argument++; *argument != NULL; argument++) {
        const char *word = *argument;
        if (options && strcmp(word, "--") == 0) {
            options = false;
        } else if (options && strcmp(word, "--rows") == 0) {
            asked.rows = true;
        } else if (options && strcmp(word, "--table") == 0) {
            asked.table = behind(argument++, "a file");
        } else if (options && strcmp(word, "--base") == 0) {
            asked.base = (int32_t)number_in(behind(argument++, "a number"), INT32_MIN, INT32_MAX, "the base");
        } else if (options && strcmp(word, "--area") == 0) {
            asked.area = (size_t)number_in(behind(argument++, "a number"), 0, 1 << 30, "the area's size");
            asked.area_given = true;
        } else if (options && word[0] == '-' && !isdigit((unsigned char)word[1])) {
            fail("there is no option '%s'; ./tape --help says how it is used.", word);
        } else if (!mode_given) {
            asked.mode = (uint16_t)number_in(word, 0, UINT16_MAX, "the mode");
            mode_given = true;
        } else if (asked.tape == NULL) {
            asked.tape = word;
        } else {
            fail("one tape at a time, please: '%s' and '%s' were named.", asked.tape, word);
        }
    }
    if (!mode_given) fail("which mode? 1, 5 or 9; ./tape --help says how it is used.");
    return asked;
}

static const char *plural(size_t count) { return count == 1 ? "" : "s"; }

static void tell_refusal(unsigned number)
{
    static const char *const why[] = {"the mode is none of 1, 5 and 9", "a character would be looked up a ninth time",
                                      "base plus character is outside the table",
                                      "an entry of the table has a class that isn't listed"};
    fprintf(stderr, "tape: refused with %u: %s. Nothing is delivered.\n", number,
            why[number - TAPE_OTHER_MODE]);
}

static void tell(const struct asked *asked, size_t tape_bytes, const struct tape_taken *taken)
{
    size_t left = tape_bytes - taken->read;
    fprintf(stderr, "tape: %zu byte%s read, %zu delivered", taken->read, plural(taken->read), taken->stored);
    if (left == 0)
        fputs("; the tape is used up.\n", stderr);
    else if (taken->stored == asked->area)
        fprintf(stderr, "; the area is full, with %zu byte%s of the tape left.\n", left, plural(left));
    else
        fprintf(stderr, "; a block ended, with %zu byte%s of the tape left.\n", left, plural(left));
    if (taken->base != asked->base)
        fprintf(stderr, "tape: the base moved from %ld to %ld.\n", (long)asked->base, (long)taken->base);
    if (taken->status != 0)
        fprintf(stderr, "tape: the status is %04X: a character of class 136 or above came up.\n",
                (unsigned)taken->status);
}

int main(int arguments, char **argument)
{
    static uint16_t table[TAPE_TABLE_WORDS_MOST];
    (void)arguments;
    struct asked asked = read_words(argument);
    size_t words = asked.table != NULL ? read_table(asked.table, table) : 0;
    struct bytes tape = asked.rows ? read_rows(asked.tape) : read_whole(asked.tape);
    if (!asked.area_given) asked.area = tape.count;
    uint8_t *area = malloc(asked.area + 1);
    if (area == NULL) fail("there is no memory for an area of %zu bytes.", asked.area);
    struct tape_taken taken =
        tape_read(asked.mode, tape.byte, tape.count, table, words, asked.base, area, asked.area);
    if (taken.number != TAPE_DONE) {
        tell_refusal(taken.number);
        return 1;
    }
    if (fwrite(area, 1, taken.stored, stdout) != taken.stored || fflush(stdout) != 0)
        fail("standard output can't be written: %s.", strerror(errno));
    tell(&asked, tape.count, &taken);
    return 0;
}
