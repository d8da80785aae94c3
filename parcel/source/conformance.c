/*
 * The conformance run: the libraries of this folder, as your compiler made them, through test vectors that were made elsewhere, and
 * through a digest of 2,000 rounds of calls of every library, which must come to what the proved archives come to. Prints one line,
 * on the serial line of an AVR, else on standard output, and ends with 0 if all agrees, else with 1.
 *
 * It keeps nothing but one table and one room. On another board without an operating system write 'put' below for it.
 */
#include <stddef.h>
#include <stdint.h>

#include "digest.h"
#include "elvomike/monitor.h"

#if defined(__AVR__)
#include <avr/interrupt.h>
#include <avr/io.h>
#include <avr/pgmspace.h>
#include <avr/sleep.h>
#define CONFORMANCE_MEMORY PROGMEM
#define CONFORMANCE_WORD(place) pgm_read_word(place)
static void begin(void)
{
    UCSR0B = 1 << TXEN0;
}
static void put(char c)
{
    while (!(UCSR0A & (1 << UDRE0))) continue;
    UDR0 = (uint8_t)c;
}
static void end(void)
{
    cli();
    sleep_enable();
    sleep_cpu();
}
#else
#include <stdio.h>
#define CONFORMANCE_MEMORY
#define CONFORMANCE_WORD(place) (*(place))
static void begin(void)
{
}
static void put(char c)
{
    putchar(c);
}
static void end(void)
{
    fflush(stdout);
}
#endif

#include "vectors.h"

enum { END = 0, CALL = 1, LAYOUT = 2, WORDS = 320, ROOM = 640, LIST = 170, COUNTERS = 24, ROUNDS = 2000 };

static const uint16_t *next = conformance_vectors;
static uint16_t zeros, table[WORDS], room[ROOM], list[LIST], counters[COUNTERS];

/* The next word: a zero stands before how many zeros there are. */
static uint16_t word(void)
{
    if (zeros == 0) {
        uint16_t found = CONFORMANCE_WORD(next++);
        if (found != 0) return found;
        zeros = CONFORMANCE_WORD(next++);
    }
    zeros--;
    return 0;
}

/* A run of words; gives how many they are. */
static uint16_t run(uint16_t *to)
{
    uint16_t count = word();
    for (uint16_t i = 0; i < count; i++) to[i] = word();
    return count;
}

/* A sum by which words that should stay can be told from words that did not. */
static uint32_t sum(const uint16_t *words, uint16_t count)
{
    uint32_t total = 2166136261u;
    for (uint16_t i = 0; i < count; i++) total = (total ^ words[i]) * 16777619u;
    return total;
}

/* Whether the words are what the vector says of them afterwards. */
static int as_told(const uint16_t *words, uint16_t count, uint32_t before)
{
    int right = 1;
    if (word() == 0) return sum(words, count) == before;
    for (uint16_t i = 0; i < count; i++) right &= words[i] == word();
    return right;
}

static int call(void)
{
    struct monitor_registers r = { .call = word() };
    r.a = word();
    r.b = word();
    for (int i = 0; i < 4; i++) r.w[i] = word();
    uint16_t table_words = run(table), room_words = run(room);
    uint32_t table_before = sum(table, table_words), room_before = sum(room, room_words);
    monitor_trap(table, table_words, room, room_words, &r);
    int right = r.number == word();
    right &= r.kind == word();
    right &= r.buffer == word();
    right &= r.current == word();
    for (int i = 0; i < 4; i++) right &= r.r[i] == word();
    right &= as_told(table, table_words, table_before);
    return as_told(room, room_words, room_before) && right;
}

static int layout(void)
{
    uint16_t list_words = run(list), table_words = run(table), edition = word(), counter_words = run(counters);
    uint32_t before = sum(table, table_words);
    int right = monitor_layout(list, list_words, edition, counters, counter_words, table, table_words) == word();
    return as_told(table, table_words, before) && right;
}

static void put_text(const char *text)
{
    while (*text) put(*text++);
}

static void put_number(uint16_t number)
{
    if (number >= 10) put_number(number / 10);
    put((char)('0' + number % 10));
}

int main(void)
{
    uint16_t vectors = 0, agreed = 0, kind;
    begin();
    while ((kind = word()) != END) {
        vectors++;
        agreed = (uint16_t)(agreed + (kind == CALL ? call() : layout()));
    }
    int same = digest(ROUNDS) == CONFORMANCE_DIGEST;
    put_text("elvomike " MONITOR_VERSION_TEXT ": "), put_number(agreed), put_text(" of "), put_number(vectors);
    put_text(same ? " vectors agree, and the digest does\n" : " vectors agree, and the digest DIFFERS\n");
    end();
    return agreed == vectors && same ? 0 : 1;
}
