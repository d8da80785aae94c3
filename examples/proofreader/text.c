/* The text, cut into pages, lines and words. Assumes that the bytes taken stay as they are. */
#include "text.h"

static const char *bytes_of_text;
static uint32_t line_at[TEXT_LINES_MOST];
static uint8_t line_bytes[TEXT_LINES_MOST];
static uint32_t first_line[TEXT_PAGES_MOST + 1]; /* of each page, and behind the last */
static unsigned lines, pages;

static bool is_letter(char byte)
{
    unsigned char c = (unsigned char)byte;
    return (c >= 'A' && c <= 'Z') || (c >= 'a' && c <= 'z') || c > 127;
}

static bool is_blank(char c) { return c == ' ' || c == '\t' || c == '\r'; }

/* The middle of a character of more than one byte. */
static bool is_middle(char c) { return ((unsigned char)c & 0xC0) == 0x80; }

/* Whether place i of these bytes belongs to a word. */
static bool in_word(const char *at, size_t i, size_t bytes)
{
    if (is_letter(at[i])) return true;
    return at[i] == '\'' && i > 0 && i + 1 < bytes && is_letter(at[i - 1]) && is_letter(at[i + 1]);
}

/* How many of the bytes are the next line, its end not counted. */
static size_t next_line(const char *at, size_t bytes)
{
    size_t i = 0, blank = 0;
    unsigned words = 0;
    for (; i < bytes && at[i] != '\n' && at[i] != '\f'; i++) {
        if (is_blank(at[i])) blank = i;
        if (in_word(at, i, bytes) && (i == 0 || !in_word(at, i - 1, bytes))) words++;
        if (i < LINE_BYTES && words <= LINE_WORDS) continue;
        if (blank > 0) return blank;
        while (i > 1 && is_middle(at[i])) i--;
        return i;
    }
    return i;
}

/* Ends the page if it has a line; false if there is no room for another. */
static bool end_page(void)
{
    if (lines == first_line[pages]) return true;
    if (pages == TEXT_PAGES_MOST) return false;
    first_line[++pages] = lines;
    return true;
}

/* Adds a line, without the blanks at its end. */
static bool add_line(size_t at, size_t bytes)
{
    if (lines == TEXT_LINES_MOST || pages == TEXT_PAGES_MOST) return false;
    while (bytes > 0 && is_blank(bytes_of_text[at + bytes - 1])) bytes--;
    line_at[lines] = (uint32_t)at;
    line_bytes[lines++] = (uint8_t)bytes;
    return lines - first_line[pages] < PAGE_LINES || end_page();
}

bool text_take(const char *text, size_t bytes)
{
    size_t at = 0;
    bytes_of_text = text;
    lines = pages = 0;
    first_line[0] = 0;
    while (at < bytes) {
        if (text[at] == '\f') {
            at += at + 1 < bytes && text[at + 1] == '\n' ? 2 : 1;
            if (!end_page()) return false;
            continue;
        }
        size_t taken = next_line(text + at, bytes - at);
        if (!add_line(at, taken)) return false;
        at += taken;
        if (at < bytes && text[at] != '\f' && (text[at] == '\n' || is_blank(text[at]))) at++;
    }
    return end_page() && pages > 0;
}

unsigned text_pages(void) { return pages; }

static unsigned shown(unsigned page) { return (page - 1) % pages; }

unsigned text_lines(unsigned page) { return first_line[shown(page) + 1] - first_line[shown(page)]; }

struct text_line text_line(unsigned page, unsigned line)
{
    uint32_t i = first_line[shown(page)] + line;
    return (struct text_line){bytes_of_text + line_at[i], line_bytes[i]};
}

bool text_next_word(const struct text_line *line, unsigned *at, struct text_word *word)
{
    unsigned i = *at;
    while (i < line->bytes && !in_word(line->at, i, line->bytes)) i++;
    word->at = line->at + i;
    word->bytes = 0;
    while (i < line->bytes && in_word(line->at, i, line->bytes)) i++, word->bytes++;
    *at = i;
    return word->bytes > 0;
}

uint16_t text_sum(unsigned page, unsigned line)
{
    struct text_line it = text_line(page, line);
    uint32_t sum = page * 31u + line;
    for (unsigned i = 0; i < it.bytes; i++) sum = (sum << 5 | sum >> 27) + (unsigned char)it.at[i];
    return (uint16_t)(sum ^ sum >> 16);
}
