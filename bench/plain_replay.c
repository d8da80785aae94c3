/*
 * The replay of docs/MONITOR.md, 15, in plain C, to measure the proved one by: a log of calls on standard
 * input, the answers on standard output, gathered and written once a read. Digits go by tables, two at a
 * time. Assumes a monitor that does what docs/MONITOR.md says. Compiled with QUICK it trusts its
 * table, which is its own.
 */
#include <stdbool.h>
#include <string.h>
#include <unistd.h>

#include "entry.h"

enum { LINE_DIGITS = 26, ANSWER_BYTES = 31, ROW_BYTES = 21 };
enum { LONGEST = ANSWER_BYTES + ROW_BYTES * MONITOR_BUFFERS_MOST }; /* no line writes more bytes */
enum { BLOCK_BYTES = 65536, BEGUN_BYTES = LINE_DIGITS + 1 };        /* of a line begun no more is kept */
enum { TABLE_WORDS = MONITOR_TABLE_WORDS(MONITOR_PROCESSES_MOST, MONITOR_BUFFERS_MOST, 0) };
enum { ENTRIES_MOST = MONITOR_PROCESSES_MOST + 1 }; /* one more than a layout takes */

/* ---- digits */

/* What two digits are worth, by their bytes as one number: all bits set where one of them is no digit. */
static uint32_t pair_values[UINT16_MAX + 1];

/* The two digits of a byte. */
static uint16_t pair_digits[UINT8_MAX + 1];

static void make_tables(void)
{
    static const char digits[] = "0123456789ABCDEF";
    memset(pair_values, 0xFF, sizeof pair_values);
    for (unsigned value = 0; value <= UINT8_MAX; value++) {
        const char pair[2] = {digits[value >> 4], digits[value & 15]};
        memcpy(&pair_digits[value], pair, sizeof pair);
        pair_values[pair_digits[value]] = value;
    }
}

static inline uint32_t pair_at(const uint8_t *place)
{
    uint16_t pair;
    memcpy(&pair, place, sizeof pair);
    return pair_values[pair];
}

/* The word in four digits; above 65,535 where one of them is no digit. */
static inline uint32_t word_at(const uint8_t *place) { return pair_at(place) << 8 | pair_at(place + 2); }

static inline void put_pair(uint8_t *place, unsigned value)
{
    memcpy(place, &pair_digits[value & 0xFF], sizeof *pair_digits);
}

static inline void put_word(uint8_t *place, unsigned word)
{
    put_pair(place, word >> 8);
    put_pair(place + 2, word);
}

/* Four words are most often zero, both in a call and in an answer: those go by in one stroke. */
static const char zeros[16] = "0000000000000000";

static inline uint32_t four_words_at(const uint8_t *place, uint16_t *words)
{
    uint32_t all = 0;
    if (memcmp(place, zeros, sizeof zeros) == 0) {
        memset(words, 0, 4 * sizeof *words);
        return 0;
    }
    for (unsigned i = 0; i < 4; i++) {
        uint32_t word = word_at(place + 4 * i);
        words[i] = (uint16_t)word;
        all |= word;
    }
    return all;
}

static inline void put_four_words(uint8_t *place, const uint16_t *words)
{
    uint64_t four;
    memcpy(&four, words, sizeof four);
    if (four == 0)
        memcpy(place, zeros, sizeof zeros);
    else
        for (unsigned i = 0; i < 4; i++) put_word(place + 4 * i, words[i]);
}

/* ---- lines */

/* Reads the call in 26 digits; false if one of them is no digit. */
static inline bool line_read(const uint8_t *line, struct monitor_registers *r)
{
    uint32_t call = pair_at(line), a = word_at(line + 2), b = word_at(line + 6);
    r->call = (uint16_t)call;
    r->a = (uint16_t)a;
    r->b = (uint16_t)b;
    return (call | a | b | four_words_at(line + 10, r->w)) <= UINT16_MAX;
}

/* The parts are zero that one of calls 01 to 0B doesn't use. */
static inline bool well_formed(const struct monitor_registers *r)
{
    if (r->call > MONITOR_LIST) return true;
    if (r->a != 0 && r->call == MONITOR_TICK) return false;
    if (r->b != 0 && r->call != MONITOR_WAIT_INTERRUPT) return false;
    return r->call == MONITOR_SEND || r->call == MONITOR_SEND_ANSWER || (r->w[0] | r->w[1] | r->w[2] | r->w[3]) == 0;
}

static inline uint8_t *put_answer(uint8_t *out, const struct monitor_registers *r)
{
    put_pair(out, r->number);
    put_word(out + 2, r->kind);
    put_word(out + 6, r->buffer);
    put_word(out + 10, r->current);
    put_four_words(out + 14, r->r);
    out[ANSWER_BYTES - 1] = '\n';
    return out + ANSWER_BYTES;
}

static uint8_t *put_rows(uint8_t *out, const uint16_t *room, unsigned rows)
{
    for (; rows > 0; rows--) {
        for (unsigned i = 0; i < MONITOR_LISTING_WORDS; i++) put_word(out + 4 * i, *room++);
        out[ROW_BYTES - 1] = '\n';
        out += ROW_BYTES;
    }
    return out;
}

static uint8_t *put_other(uint8_t *out)
{
    memcpy(out, "FF\n", 3);
    return out + 3;
}

/* ---- the run */

enum phase { GATHERING, RUNNING, ENDED };

struct replay {
    enum phase phase;
    unsigned entries;
    uint16_t list[MONITOR_ENTRY_WORDS * ENTRIES_MOST];
    uint16_t table[TABLE_WORDS];
    uint16_t room[MONITOR_LISTING_WORDS * MONITOR_BUFFERS_MOST];
    struct monitor_registers registers;
    uint8_t *out; /* behind what is gathered */
    uint8_t gathered[2 * BLOCK_BYTES];
};

/* A line of call 00: an entry, if the layout isn't done and the last word is zero. */
static void gather(struct replay *replay)
{
    const struct monitor_registers *r = &replay->registers;
    if (replay->phase != GATHERING || r->w[3] != 0) {
        replay->out = put_other(replay->out);
        return;
    }
    if (replay->entries == ENTRIES_MOST) return;
    uint16_t *entry = replay->list + MONITOR_ENTRY_WORDS * replay->entries++;
    entry[0] = r->a;
    entry[1] = r->b;
    memcpy(entry + 2, r->w, 3 * sizeof *entry);
}

/* The layout; a refused one ends the run. */
static void lay_out(struct replay *replay)
{
    struct monitor_registers answer = {0};
    answer.number = monitor_layout(replay->list, MONITOR_ENTRY_WORDS * replay->entries, MONITOR_EDITION_FIRST,
                                   replay->list, 0, replay->table, TABLE_WORDS);
    replay->phase = answer.number == MONITOR_DONE ? RUNNING : ENDED;
    if (replay->phase == ENDED) replay->out = put_answer(replay->out, &answer);
}

/* The call that was read. */
static inline void serve(struct replay *replay)
{
    struct monitor_registers *r = &replay->registers;
    MAKE_CALL(replay->table, TABLE_WORDS, replay->room, sizeof replay->room / sizeof *replay->room, r);
    replay->out = put_answer(replay->out, r);
    if (r->call == MONITOR_LIST) replay->out = put_rows(replay->out, replay->room, r->kind);
}

static inline void turn(struct replay *replay)
{
    if (replay->registers.call == 0) {
        gather(replay);
    } else if (!well_formed(&replay->registers)) {
        replay->out = put_other(replay->out);
    } else {
        if (replay->phase == GATHERING) lay_out(replay);
        if (replay->phase == RUNNING) serve(replay);
    }
}

static void write_out(struct replay *replay)
{
    const uint8_t *from = replay->gathered;
    while (from < replay->out) {
        ssize_t written = write(STDOUT_FILENO, from, (size_t)(replay->out - from));
        if (written <= 0) break;
        from += written;
    }
    replay->out = replay->gathered;
}

/* The lines of a block; gives where one begins that doesn't end in it. What isn't 26 digits is of another shape. */
static const uint8_t *take_lines(struct replay *replay, const uint8_t *line, const uint8_t *end)
{
    const uint8_t *full = replay->gathered + sizeof replay->gathered - LONGEST;
    while (replay->phase != ENDED) {
        if (end - line > LINE_DIGITS && line[LINE_DIGITS] == '\n' && line_read(line, &replay->registers)) {
            turn(replay);
            line += LINE_DIGITS + 1;
        } else {
            const uint8_t *line_end = memchr(line, '\n', (size_t)(end - line));
            if (line_end == NULL) break;
            replay->out = put_other(replay->out);
            line = line_end + 1;
        }
        if (replay->out > full) write_out(replay);
    }
    return line;
}

int main(void)
{
    static struct replay replay;
    static uint8_t input[BEGUN_BYTES + BLOCK_BYTES]; /* the line begun stands right before what is read */
    uint8_t *const block = input + BEGUN_BYTES;
    ptrdiff_t begun = 0;
    ssize_t got;
    make_tables();
    replay.out = replay.gathered;
    while (replay.phase != ENDED && (got = read(STDIN_FILENO, block, BLOCK_BYTES)) > 0) {
        const uint8_t *rest = take_lines(&replay, block - begun, block + got);
        begun = block + got - rest < BEGUN_BYTES ? block + got - rest : BEGUN_BYTES;
        memmove(block - begun, rest, (size_t)begun);
        write_out(&replay);
    }
    block[0] = '\n'; /* the last line may lack its end */
    if (begun > 0) take_lines(&replay, block - begun, block + 1);
    if (replay.phase == GATHERING) lay_out(&replay);
    write_out(&replay);
    return 0;
}
