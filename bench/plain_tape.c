/*
 * The tape reader's input operation in plain C, as the proved one has it: the same function, declared
 * in include/elvomike/tape.h. Written with care for speed, and for nothing else a second time: a table of
 * marks, the commonest class first, one pass that decides and one that stores. Assumes what the header
 * asks of its caller.
 */
#include "elvomike/tape.h"

#include <stdbool.h>
#include <string.h>

/* '1' for a byte with an odd number of ones, '0' for another. */
static const char marks[] =
    "0110100110010110100101100110100110010110011010010110100110010110"
    "1001011001101001011010011001011001101001100101101001011001101001"
    "1001011001101001011010011001011001101001100101101001011001101001"
    "0110100110010110100101100110100110010110011010010110100110010110";

static inline uint8_t checked(char unwanted, uint8_t byte)
{
    return marks[byte] == unwanted ? 26 : byte & 127;
}

static inline struct tape_taken refused(unsigned number, int64_t base)
{
    return (struct tape_taken){.number = (uint16_t)number, .base = (int32_t)base};
}

/* The tape, the table and the area of an operation that converts. */
struct lent {
    const uint8_t *tape;
    size_t tape_bytes;
    const uint16_t *table;
    size_t table_words;
    uint8_t *area;
    size_t area_bytes;
};

/* One pass over the tape. It is made twice, and compiled for each. */
static inline __attribute__((always_inline)) struct tape_taken
pass(char unwanted, const struct lent *lent, const int32_t start, const bool store)
{
    size_t stored = 0, read = 0;
    int64_t base = start;
    uint16_t status = 0;
    while (stored < lent->area_bytes && read < lent->tape_bytes) {
        const uint8_t c = checked(unwanted, lent->tape[read++]);
        unsigned class, value, left = 8;
        for (;; left--) {
            if (left == 0) return refused(TAPE_NINTH_LOOKUP, start);
            const size_t place = (size_t)(base + c);
            if (place >= lent->table_words) return refused(TAPE_OUTSIDE_TABLE, start);
            class = lent->table[place] >> 8;
            value = lent->table[place] & 255;
            if (class == TAPE_NORMAL) break;
            if (class == TAPE_DOWN)
                base -= value != 0 ? value : 256;
            else if (class == TAPE_UP)
                base += value != 0 ? value : 256;
            else
                break;
        }
        if (class != TAPE_NORMAL) {
            if (class == TAPE_SKIP) continue;
            if (class == TAPE_END) break;
            if (class < TAPE_PARITY) return refused(TAPE_CLASS_NOT_LISTED, start);
            status = TAPE_STATUS_PARITY;
        }
        if (store) lent->area[stored] = (uint8_t)value;
        stored++;
    }
    return (struct tape_taken){0, stored, read, (int32_t)base, status};
}

struct tape_taken tape_read(uint16_t mode, const uint8_t *tape, size_t tape_bytes,
                            const uint16_t *table, size_t table_words, int32_t base, uint8_t *area,
                            size_t area_bytes)
{
    const char unwanted = mode == TAPE_ODD ? '0' : '1';
    const size_t fewer = tape_bytes < area_bytes ? tape_bytes : area_bytes;
    if (mode != TAPE_BINARY && mode != TAPE_ODD && mode != TAPE_EVEN)
        return refused(TAPE_OTHER_MODE, base);
    if (mode == TAPE_BINARY) {
        memcpy(area, tape, fewer);
        return (struct tape_taken){0, fewer, fewer, base, 0};
    }
    if (table_words == 0) {
        for (size_t i = 0; i < fewer; i++) area[i] = checked(unwanted, tape[i]);
        return (struct tape_taken){0, fewer, fewer, base, 0};
    }
    if (table_words > TAPE_TABLE_WORDS_MOST) table_words = TAPE_TABLE_WORDS_MOST;
    const struct lent lent = {tape, tape_bytes, table, table_words, area, area_bytes};
    struct tape_taken tried = pass(unwanted, &lent, base, false);
    return tried.number != TAPE_DONE ? tried : pass(unwanted, &lent, base, true);
}
