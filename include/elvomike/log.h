/*
 * A station's log, line by line, as ./replay, ./explain and ./compare read it: what each digit means is in docs/LOG.md.
 * Lines are written into an array that you lend and read from one; there is no allocation and no
 * call of the C library, and nothing to link with.
 *
 *     char line[MONITOR_LOG_CHARS_MOST];
 *     for (i = 0; i < processes; i++)                          first, once: the layout
 *         out(line, monitor_log_layout(list + MONITOR_ENTRY_WORDS * i, line, sizeof line));
 *     monitor_trap(table, table_words, room, room_words, &r);
 *     out(line, monitor_log_call(&r, line, sizeof line));      then, after each call: the call,
 *     out(line, monitor_log_answer(&r, line, sizeof line));    its answer,
 *     for (i = 0; i < monitor_log_rows(&r); i++)               and the rows of a listing
 *         out(line, monitor_log_row(room + MONITOR_LISTING_WORDS * i, line, sizeof line));
 *
 * Writing gives how many characters the line has, its end (0A hex) counted; 0, and nothing written, where fewer are lent, or
 * where no line says this. There is no zero byte behind it. Answers and rows are marked with '> '. The edition and the
 * semaphores' counters aren't in a log: whoever reads it is told them.
 */
#ifndef ELVOMIKE_LOG_H
#define ELVOMIKE_LOG_H

#include "monitor.h"

#include <stdbool.h>

/* Characters of a line with its end: of a layout line and of a call, of an answer, of a row; and room for any of them. */
#define MONITOR_LOG_CALL_CHARS 27u
#define MONITOR_LOG_ANSWER_CHARS 33u
#define MONITOR_LOG_ROW_CHARS 23u
#define MONITOR_LOG_CHARS_MOST MONITOR_LOG_ANSWER_CHARS

/* ---- below the lines: numbers in hexadecimal digits, the highest first; each gives where the next one stands */

static inline char *monitor_log_put_number(char *at, unsigned value, unsigned digits)
{
    while (digits-- > 0) *at++ = "0123456789ABCDEF"[value >> 4 * digits & 15u];
    return at;
}

static inline char *monitor_log_put_words(char *at, const uint16_t *word, unsigned count)
{
    while (count-- > 0) at = monitor_log_put_number(at, *word++, 4);
    return at;
}

/* What an upper-case digit is worth; 16 for any other character. */
static inline unsigned monitor_log_digit(char digit)
{
    if (digit >= '0' && digit <= '9') return (unsigned)(digit - '0');
    return digit >= 'A' && digit <= 'F' ? (unsigned)(digit - 'A') + 10u : 16u;
}

/* Reads a number of two digits, if 'two' is set, and words of four behind it, which fill the line but for its end, and no more. */
static inline bool monitor_log_take(const char *line, size_t chars, bool two, uint16_t *word, unsigned count)
{
    const size_t short_one = two ? 2u : 0u;
    size_t i, k;
    if (chars > 0 && line[chars - 1] == '\n') chars--;
    if (chars != short_one + 4u * (count - (two ? 1u : 0u))) return false;
    for (i = 0; i < count; i++) {
        const unsigned digits = two && i == 0 ? 2u : 4u;
        unsigned value = 0;
        for (k = 0; k < digits; k++, line++) {
            if (monitor_log_digit(*line) > 15u) return false;
            value = value << 4 | monitor_log_digit(*line);
        }
        word[i] = (uint16_t)value;
    }
    return true;
}

/* Whether a call uses the part; of a call that there isn't, all of them are told. */
static inline bool monitor_log_uses_a(unsigned call) { return call != MONITOR_TICK; }
static inline bool monitor_log_uses_b(unsigned call) { return call == MONITOR_WAIT_INTERRUPT || call > MONITOR_RAISE; }
static inline bool monitor_log_uses_words(unsigned call)
{
    return call == MONITOR_SEND || call == MONITOR_SEND_ANSWER || call > MONITOR_RAISE;
}

/* Passes over the mark of an answer or a row, where there is one. */
static inline const char *monitor_log_unmark(const char *line, size_t *chars)
{
    if (*chars < 2 || line[0] != '>' || line[1] != ' ') return line;
    *chars -= 2;
    return line + 2;
}

/* ---- writing */

/* The layout line of a process, from the five words that the list has of it. */
static inline size_t monitor_log_layout(const uint16_t *entry, char *line, size_t chars)
{
    char *at = line;
    if (chars < MONITOR_LOG_CALL_CHARS) return 0;
    at = monitor_log_put_number(at, 0, 2);
    at = monitor_log_put_words(at, entry, MONITOR_ENTRY_WORDS);
    at = monitor_log_put_number(at, 0, 4);
    *at = '\n';
    return MONITOR_LOG_CALL_CHARS;
}

/* The line of a call. Parts that the call doesn't use are written as zeros, whatever the record has there. No line says
 * call 0, which would be a layout line, nor one above 255; both are refused with MONITOR_NO_SUCH_CALL. */
static inline size_t monitor_log_call(const struct monitor_registers *r, char *line, size_t chars)
{
    static const uint16_t none[4] = {0, 0, 0, 0};
    char *at = line;
    if (chars < MONITOR_LOG_CALL_CHARS || r->call == 0 || r->call > 0xFF) return 0;
    at = monitor_log_put_number(at, r->call, 2);
    at = monitor_log_put_number(at, monitor_log_uses_a(r->call) ? r->a : 0u, 4);
    at = monitor_log_put_number(at, monitor_log_uses_b(r->call) ? r->b : 0u, 4);
    at = monitor_log_put_words(at, monitor_log_uses_words(r->call) ? r->w : none, 4);
    *at = '\n';
    return MONITOR_LOG_CALL_CHARS;
}

/* The line of an answer. That of a refused layout has its number, and zeros for all else. */
static inline size_t monitor_log_answer(const struct monitor_registers *r, char *line, size_t chars)
{
    char *at = line;
    if (chars < MONITOR_LOG_ANSWER_CHARS || r->number > 0xFF) return 0;
    *at++ = '>';
    *at++ = ' ';
    at = monitor_log_put_number(at, r->number, 2);
    at = monitor_log_put_number(at, r->kind, 4);
    at = monitor_log_put_number(at, r->buffer, 4);
    at = monitor_log_put_number(at, r->current, 4);
    at = monitor_log_put_words(at, r->r, 4);
    *at = '\n';
    return MONITOR_LOG_ANSWER_CHARS;
}

/* How many rows stand behind the answer. */
static inline size_t monitor_log_rows(const struct monitor_registers *r)
{
    return r->call == MONITOR_LIST && r->number == MONITOR_DONE ? r->kind : 0u;
}

/* The line of a row, from its five words in the room. */
static inline size_t monitor_log_row(const uint16_t *row, char *line, size_t chars)
{
    char *at = line;
    if (chars < MONITOR_LOG_ROW_CHARS) return 0;
    *at++ = '>';
    *at++ = ' ';
    at = monitor_log_put_words(at, row, MONITOR_LISTING_WORDS);
    *at = '\n';
    return MONITOR_LOG_ROW_CHARS;
}

/* ---- and back. Each says whether the line is such a one, and fills in what it says; of another line it fills in nothing
 * that can be relied on. A line may have its end or lack it, and an answer or a row its mark, which a replay doesn't write. */

static inline bool monitor_log_read_layout(const char *line, size_t chars, uint16_t *entry)
{
    uint16_t word[7];
    unsigned i;
    if (!monitor_log_take(line, chars, true, word, 7) || word[0] != 0 || word[6] != 0) return false;
    for (i = 0; i < MONITOR_ENTRY_WORDS; i++) entry[i] = word[1 + i];
    return true;
}

/* Fills in the seven words of a call, and leaves the answer's alone. A line is none where a part isn't zero that one of
 * calls 1 to 0B doesn't use; of the others any part may be there. */
static inline bool monitor_log_read_call(const char *line, size_t chars, struct monitor_registers *r)
{
    uint16_t word[7];
    unsigned i, unused = 0;
    if (!monitor_log_take(line, chars, true, word, 7) || word[0] == 0) return false;
    if (!monitor_log_uses_a(word[0])) unused |= word[1];
    if (!monitor_log_uses_b(word[0])) unused |= word[2];
    for (i = 3; i < 7; i++)
        if (!monitor_log_uses_words(word[0])) unused |= word[i];
    if (unused != 0 && word[0] <= MONITOR_LIST) return false;
    r->call = word[0];
    r->a = word[1];
    r->b = word[2];
    for (i = 0; i < 4; i++) r->w[i] = word[3 + i];
    return true;
}

/* Fills in the eight words of an answer, and leaves the call's alone. */
static inline bool monitor_log_read_answer(const char *line, size_t chars, struct monitor_registers *r)
{
    uint16_t word[8];
    unsigned i;
    line = monitor_log_unmark(line, &chars);
    if (!monitor_log_take(line, chars, true, word, 8)) return false;
    r->number = word[0];
    r->kind = word[1];
    r->buffer = word[2];
    r->current = word[3];
    for (i = 0; i < 4; i++) r->r[i] = word[4 + i];
    return true;
}

static inline bool monitor_log_read_row(const char *line, size_t chars, uint16_t *row)
{
    line = monitor_log_unmark(line, &chars);
    return monitor_log_take(line, chars, false, row, MONITOR_LISTING_WORDS);
}

#endif
