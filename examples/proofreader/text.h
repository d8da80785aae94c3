/*
 * The text that is proofread: pages of lines, and the words of a line. It is cut once, before the station runs, and
 * nobody changes it; its bytes stay where they are. A page ends at a form feed, or is full; a line that is too long is
 * broken at a blank. A word is a run of letters, with apostrophes between them; bytes above 127 count as letters.
 */
#ifndef TEXT_H
#define TEXT_H

#include <stdbool.h>
#include <stddef.h>
#include <stdint.h>

enum { PAGE_LINES = 60, LINE_BYTES = 96, LINE_WORDS = 32 };

/* How much a text may have; a board has less room than a PC. */
#ifndef TEXT_LINES_MOST
#define TEXT_LINES_MOST 256
#endif
#ifndef TEXT_PAGES_MOST
#define TEXT_PAGES_MOST 16
#endif

struct text_line {
    const char *at;
    unsigned bytes;
};

struct text_word {
    const char *at;
    unsigned bytes;
};

/* Takes a text, instead of any before. False if it has no line, or too many lines or pages. */
bool text_take(const char *text, size_t bytes);

unsigned text_pages(void);

/* Of page n, from 1: how many lines it has, and one of them, from 0. Behind the last page comes the first again. */
unsigned text_lines(unsigned page);
struct text_line text_line(unsigned page, unsigned line);

/* The next word of the line at or behind place 'at', which moves behind it; false if there is none. */
bool text_next_word(const struct text_line *line, unsigned *at, struct text_word *word);

/* A sum of the page's number, the line's and its bytes, by which its messages know each other. */
uint16_t text_sum(unsigned page, unsigned line);

#endif
