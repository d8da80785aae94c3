/*
 * ./station: the proofreader of examples/proofreader on this PC. Here the words of the command are read and the text,
 * and lines go to paper and screen; the station itself is the same source as on a board.
 */
#include <errno.h>
#include <stdio.h>
#include <stdlib.h>
#include <string.h>

#include "../tape/input.h"
#include "keeping.h"
#include "pc.h"
#include "proofreader.h"

enum { CLEANS_MOST = 1000000 };

const char *const command = "station";

/* What the command asks for, besides what stands in 'proofreader' and 'pc'. */
struct asked {
    const char *text, *log, *words;
};
static bool screen_wanted;

static unsigned long number_of(const char *text, unsigned long least, unsigned long most, const char *what)
{
    char *end;
    errno = 0;
    unsigned long number = strtoul(text, &end, 10);
    if (*text < '0' || *text > '9' || *end != 0) fail("'%s' is no number; %s is one.", text, what);
    if (errno != 0 || number < least || number > most) fail("%s %s is outside %lu to %lu.", what, text, least, most);
    return number;
}

/* What stands behind an option. */
static const char *behind(char **word, const char *what)
{
    if (word[1] == NULL) fail("%s wants %s behind it.", word[0], what);
    return word[1];
}

/* An option that has a value; false if the word is none of them. */
static bool is_valued(char **word, struct asked *asked)
{
    if (strcmp(*word, "--log") == 0)
        asked->log = behind(word, "a file");
    else if (strcmp(*word, "--words") == 0)
        asked->words = behind(word, "a file");
    else if (strcmp(*word, "--seed") == 0)
        pc.seed = (uint32_t)number_of(behind(word, "a number"), 1, UINT32_MAX, "the seed");
    else if (strcmp(*word, "--cleans") == 0)
        proofreader.cleans = (uint32_t)number_of(behind(word, "a number"), 0, CLEANS_MOST, "the number of ticks");
    else if (strcmp(*word, "--pages") == 0)
        proofreader.pages = (uint16_t)number_of(behind(word, "a number"), 1, PAGES_MOST, "the number of pages");
    else
        return false;
    return true;
}

static struct asked read_words(char **word)
{
    struct asked asked = {0};
    bool options = true;
    for (word++; *word != NULL; word++) {
        if (options && strcmp(*word, "--") == 0)
            options = false;
        else if (options && strcmp(*word, "--clock") == 0)
            pc.clock = true;
        else if (options && strcmp(*word, "--screen") == 0)
            screen_wanted = true;
        else if (options && is_valued(word, &asked))
            word++;
        else if (options && (*word)[0] == '-' && (*word)[1] != 0)
            fail("there is no option '%s'; ./station --help says how it is used.", *word);
        else if (asked.text != NULL)
            fail("one text at a time, please: '%s' and '%s' were named.", asked.text, *word);
        else
            asked.text = *word;
    }
    if (asked.text == NULL) fail("which text? ./station --help says how it is used.");
    return asked;
}

/* A file, or standard input where it is called '-'. */
static struct bytes read_named(const char *name) { return read_whole(strcmp(name, "-") == 0 ? NULL : name); }

/* The word list of a file, a word a line, in small letters. */
static void take_words(const char *name)
{
    struct bytes all = read_named(name);
    char *rest = (char *)all.byte;
    unsigned lines = 1;
    for (size_t i = 0; i < all.count; i++) {
        lines += rest[i] == '\n';
        if (rest[i] >= 'A' && rest[i] <= 'Z') rest[i] = (char)(rest[i] - 'A' + 'a');
    }
    proofreader.words = malloc(lines * sizeof *proofreader.words);
    if (proofreader.words == NULL) fail("there is no memory for the %u words of '%s'.", lines, name);
    for (char *line; (line = next_line(&rest)) != NULL;)
        if (*line != 0) proofreader.words[proofreader.word_count++] = line;
}

void pc_paper(const char *line)
{
    if (puts(line) == EOF) fail("standard output can't be written: %s.", strerror(errno));
}

void pc_screen(const char *line)
{
    if (screen_wanted) fprintf(stderr, "%s\n", line);
}

static void tell_standstill(void) { fputs("station: no page came out for long; the operator cleans every process.\n", stderr); }

void port_halt(const char *why)
{
    log_end();
    fflush(stdout);
    fail("the station is halted: %s.", why);
}

static const char *plural(unsigned long count) { return count == 1 ? "" : "s"; }

int main(int count, char **word)
{
    static const char *built_in[BUILT_IN_WORDS_MOST];
    (void)count;
    struct asked asked = read_words(word);
    struct bytes text = read_named(asked.text);
    if (!text_take((const char *)text.byte, text.count))
        fail("'%s' can't be taken: a text has a line at least, at most %d lines and %d pages.", asked.text, TEXT_LINES_MOST, TEXT_PAGES_MOST);
    proofreader.words = built_in;
    if (asked.words != NULL)
        take_words(asked.words);
    else
        proofreader.word_count = built_in_words(built_in);
    if (proofreader.pages == 0) proofreader.pages = (uint16_t)text_pages();
    proofreader.seed = 1 + pc_drawn(UINT32_MAX - 1);
    proofreader.standstill = tell_standstill;
    if (asked.log != NULL) log_begin(asked.log);
    station_run(&proofreader_station);
    log_end();
    if (fflush(stdout) != 0) fail("standard output can't be written: %s.", strerror(errno));
    fprintf(stderr, "station: %u page%s printed in %lu ticks; the operator cleaned %lu time%s.\n", (unsigned)proofreader.pages,
            plural(proofreader.pages), (unsigned long)station_ticks(), (unsigned long)proofreader.cleaned, plural(proofreader.cleaned));
    return 0;
}
