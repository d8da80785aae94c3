/*
 * The paper tape reader's input operation, for C and C++ programs on x86-64 (System V).
 *
 * Link with libelvomike-tape.a. Bytes of a tape go into an area that you own, as they are or checked for parity
 * and converted by a table. Nothing is kept between calls: the base that an operation ends with is in
 * its answer, and you give it to the next.
 *
 *     uint8_t area[80];
 *     struct tape_taken t = tape_read(TAPE_EVEN, tape, tape_bytes, table, table_words, 0, area, 80);
 *     if (t.number == TAPE_DONE) use(area, t.stored);
 *
 * No pointer may be NULL, not even one to no bytes. The area must not overlap the tape or the table.
 */
#ifndef TAPE_H
#define TAPE_H

#include <stddef.h>
#include <stdint.h>

#ifdef __cplusplus
extern "C" {
#endif

/* The modes. In TAPE_ODD and TAPE_EVEN a byte with the wrong parity becomes character 26, the top bit
 * is taken off, and the character is converted if the table isn't empty. */
enum tape_mode {
    TAPE_BINARY = 1, /* all eight bits are delivered; no table is used */
    TAPE_ODD = 5,    /* a byte has an odd number of ones */
    TAPE_EVEN = 9    /* a byte has an even number of ones */
};

/*
 * The classes of a table's entry. A character is looked up at the base plus the character; the entry
 * there is one word, its class on the left and its value on the right. At 129 and 130 the character is
 * looked up again from the moved base, at most eight times in all, and the base stays moved.
 */
enum tape_class {
    TAPE_NORMAL = 0,   /* the value is delivered */
    TAPE_SKIP = 128,   /* nothing is delivered */
    TAPE_DOWN = 129,   /* the base moves down by the value, or by 256 if it is 0 */
    TAPE_UP = 130,     /* the base moves up likewise */
    TAPE_END = 132,    /* end of block: it isn't delivered, and the operation ends */
    TAPE_PARITY = 136  /* from here to 255: the value is delivered, and the status says so */
};
#define TAPE_ENTRY(class_number, value) ((uint16_t)((class_number) << 8 | (value)))

/* Words of a table that count; words beyond are not read. */
#define TAPE_TABLE_WORDS_MOST 65536u

/* What the answer's number says. A refused operation changes no byte of the area, gives the base back
 * as it was, and has 0 in the rest of its answer. */
enum tape_refusal {
    TAPE_DONE = 0,
    TAPE_OTHER_MODE = 15,      /* the mode isn't 1, 5 or 9 */
    TAPE_NINTH_LOOKUP = 16,    /* a character would have to be looked up a ninth time */
    TAPE_OUTSIDE_TABLE = 17,   /* base plus character is below 0, or not below the words that count */
    TAPE_CLASS_NOT_LISTED = 18 /* the entry's class is none of those above */
};

/* The status of an operation in which a character of class TAPE_PARITY or above came up; else 0. */
#define TAPE_STATUS_PARITY 0x0020u

struct tape_taken {
    uint16_t number; /* TAPE_DONE or an enum tape_refusal */
    size_t stored;   /* bytes put into the area, from its start on; the others are as they were */
    size_t read;     /* bytes taken from the tape, skipped ones and an end of block included */
    int32_t base;    /* the base afterwards */
    uint16_t status; /* 0 or TAPE_STATUS_PARITY */
};

/*
 * Reads from the tape until the area is full, the tape is used up, or a block ends. The mode is taken
 * as the number it is; a table of no words means no conversion.
 */
struct tape_taken tape_read(uint16_t mode, const uint8_t *tape, size_t tape_bytes,
                            const uint16_t *table, size_t table_words, int32_t base, uint8_t *area,
                            size_t area_bytes);

#ifdef __cplusplus
}
#endif

#endif
