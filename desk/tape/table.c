/*
 * Tables from text. A line is PLACE WHAT [VALUE], or FIRST..LAST for the place, or 'page N', from which
 * the places of later lines count. Assumes nothing of the text.
 */
#include "table.h"

#include <ctype.h>
#include <stdbool.h>
#include <stdlib.h>
#include <string.h>

#include "input.h"

/* What a place holds that no line names: a class that isn't listed, so that it is refused with 18. */
enum { UNNAMED_CLASS = 1 };

/* The words for the classes. In a range the value of one that delivers counts up with the place. */
static const struct what {
    const char *word;
    unsigned class;
    bool has_value, counts_up;
} whats[] = {
    {"normal", TAPE_NORMAL, true, true}, {"skip", TAPE_SKIP, false, false},
    {"down", TAPE_DOWN, true, false},    {"up", TAPE_UP, true, false},
    {"end", TAPE_END, false, false},     {"parity", TAPE_PARITY, true, true},
};
enum { WHATS = sizeof whats / sizeof whats[0] };

/* Where the reading stands. */
static unsigned line_number;

static void skip_blanks(const char **at)
{
    while (**at == ' ' || **at == '\t') ++*at;
}

/* A number, decimal or hexadecimal behind 0x, or the code of a character between quotes. */
static bool is_number(const char **at, unsigned long *number)
{
    const char *text = *at;
    if (text[0] == '\'' && text[1] > 0 && text[1] < 127 && text[2] == '\'') {
        *number = (unsigned char)text[1];
        *at = text + 3;
        return true;
    }
    if (!isdigit((unsigned char)text[0])) return false;
    char *end;
    *number = strtoul(text, &end, text[0] == '0' && (text[1] == 'x' || text[1] == 'X') ? 16 : 10);
    *at = end;
    return true;
}

static unsigned number_upto(const char **at, unsigned long most, const char *what)
{
    unsigned long number;
    skip_blanks(at);
    if (!is_number(at, &number)) fail("line %u of the table wants a %s, a number or 'x'.", line_number, what);
    if (number > most) fail("line %u of the table has the %s %lu; the highest is %lu.", line_number, what, number, most);
    return (unsigned)number;
}

/* The class that the line names, by a word or a number. */
static struct what read_what(const char **at)
{
    skip_blanks(at);
    for (unsigned i = 0; i < WHATS; i++) {
        size_t length = strlen(whats[i].word);
        if (strncmp(*at, whats[i].word, length) != 0 || isalnum((unsigned char)(*at)[length])) continue;
        *at += length;
        return whats[i];
    }
    if (!isdigit((unsigned char)**at))
        fail("line %u of the table wants one of normal, skip, down, up, end, parity, or a class's number.", line_number);
    return (struct what){NULL, number_upto(at, 255, "class"), true, false};
}

static void end_of_line(const char *at)
{
    skip_blanks(&at);
    if (*at != '\0' && *at != '#') fail("line %u of the table has more than it should: '%s'.", line_number, at);
}

/* One line that names places; gives the last of them. */
static unsigned read_entry(const char *at, unsigned page, uint16_t *table)
{
    unsigned most = TAPE_TABLE_WORDS_MOST - 1 - page;
    unsigned first = number_upto(&at, most, "place"), last = first;
    if (strncmp(at, "..", 2) == 0) {
        at += 2;
        last = number_upto(&at, most, "place");
        if (last < first) fail("line %u of the table has a range that ends before it begins.", line_number);
    }
    struct what what = read_what(&at);
    unsigned value = what.has_value ? number_upto(&at, 255, "value") : 0;
    if (what.counts_up && value + (last - first) > 255)
        fail("line %u of the table has a range whose values go beyond 255.", line_number);
    end_of_line(at);
    for (unsigned i = first; i <= last; i++)
        table[page + i] = TAPE_ENTRY(what.class, what.counts_up ? value + (i - first) : value);
    return page + last;
}

size_t read_table(const char *name, uint16_t table[TAPE_TABLE_WORDS_MOST])
{
    struct bytes text = read_whole(name);
    char *rest = (char *)text.byte, *line;
    unsigned page = 0;
    size_t words = 0;
    for (size_t i = 0; i < TAPE_TABLE_WORDS_MOST; i++) table[i] = TAPE_ENTRY(UNNAMED_CLASS, 0);
    if (strlen(rest) != text.count) fail("the table '%s' is no text.", name);
    for (line_number = 1; (line = next_line(&rest)) != NULL; line_number++) {
        const char *at = line;
        skip_blanks(&at);
        if (*at == '\0' || *at == '#') continue;
        if (strncmp(at, "page", 4) == 0) {
            at += 4;
            page = number_upto(&at, TAPE_TABLE_WORDS_MOST - 1, "page");
            end_of_line(at);
            continue;
        }
        size_t end = read_entry(at, page, table) + 1u;
        if (end > words) words = end;
    }
    if (words == 0) fail("the table '%s' names no place; without --table nothing is converted.", name);
    free(text.byte);
    return words;
}
