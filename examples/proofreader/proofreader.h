/*
 * The station of the print shops: a reader, a speller, a screen, a line printer and an operator, over ports/station.h;
 * the same source on every port. The reader asks the speller about each line of a page, shows the screen how many words
 * are not in the list, and has the printer print the page with marks under those words. Now and then the operator
 * cleans one of them and starts it anew. Processes share nothing but the text, which nobody changes, and the word list,
 * which the speller keeps in the order of use behind a semaphore.
 *
 * A conversation is about one line, which is told by page, line and sum. Messages and their answers:
 *
 *     reader to speller    page, sum, line, 0              page, sum, marks
 *     reader to printer    page, line, marks               page, line, whether the page is out, 0
 *     reader to screen     page, lines, words, mistakes    the same
 *
 * Marks are two words, the bit of a line's first word first: 1 for a word that is not in the list.
 */
#ifndef PROOFREADER_H
#define PROOFREADER_H

#include "port.h"
#include "text.h"

enum { READER = 1, SPELLER, SCREEN, PRINTER, OPERATOR, PROCESSES = 5 };
enum { READER_BUFFERS = 4, BUFFERS = READER_BUFFERS };

/* The semaphores: who has the word list; who has a page half printed. The operator takes both before it cleans, so that
 * nobody is cleaned with a list out of order or with half a page out. */
enum { LIST = 1, PAPER, SEMAPHORES = 2 };

enum { PAGES_MOST = 32767 }; /* a page's number can't be taken for STATION_WITHDRAWN */

struct marks {
    uint16_t first, second; /* of words 1 to 16, and 17 to 32 */
};

static inline bool is_marked(struct marks marks, unsigned word)
{
    return ((word < 16 ? marks.first >> word : marks.second >> (word - 16)) & 1) != 0;
}

/* What the station is asked to do, and what it has done. */
struct proofreader {
    uint16_t pages;             /* how many are to be printed; the text is gone round for more than it has */
    uint32_t cleans;            /* the operator cleans once in so many ticks, on the average; 0 never */
    uint32_t seed;              /* what the operator draws from; not 0 */
    const char **words;         /* the word list, in whatever order; it is kept in place */
    unsigned word_count;
    void (*standstill)(void);   /* no page came out for long: told before the operator cleans all; NULL for nobody */
    uint32_t printed, cleaned, standstills;
    uint32_t wrong_answers;     /* answers to another question than was asked, by page and sum */
};
extern struct proofreader proofreader;

/* The station itself, for station_run. */
extern const struct station proofreader_station;

/* The programs of the processes. */
void reader(void);
void speller(void);
void screen(void);
void printer(void);
void operator_at_work(void);

/* The built-in word list, as many words as it has. */
enum { BUILT_IN_WORDS_MOST = 512 };
unsigned built_in_words(const char *words[BUILT_IN_WORDS_MOST]);

/* Puts a text, or a number, at 'to', with a zero byte behind it; gives the place of that byte. */
char *put_text(char *to, const char *text);
char *put_number(char *to, unsigned long number);

#endif
