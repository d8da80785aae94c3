/*
 * What the calls cost on an 8-bit board, an ATmega1284P: cycles by its own timer, in steps of 64, and stack by painting it. Prints a row a
 * measure on the serial line; bench/board runs it in simavr and makes the tables of docs/BOARD.md of it.
 */
#include <avr/interrupt.h>
#include <avr/io.h>
#include <avr/sleep.h>
#include <stdint.h>

#include "elvomike/compare.h"
#include "elvomike/delays.h"
#include "elvomike/quick.h"
#include "elvomike/screen.h"
#include "elvomike/tape.h"
#include "elvomike/why.h"

enum { STEP = 64, PAINT = 0xA5, PAINTED = 4000 };

static uint16_t table[MONITOR_TABLE_WORDS_MOST], room[MONITOR_LISTING_WORDS * MONITOR_BUFFERS_MOST], list[MONITOR_ENTRY_WORDS * 32], counters[16];
static struct monitor_summary screen[MONITOR_PROCESSES_MOST];
static uint16_t processes, buffers, semaphores, words;
static struct monitor_registers r;
static uint16_t queue[DELAYS_WORDS(MONITOR_PROCESSES_MOST)], codes[128];
static uint8_t tape[64], area[64];
static uint64_t differences[4];
static const uint8_t one[] = "0100020000\n0300000000\n0900000000\n", two[] = "0100020000\n0900000000\n0900000000\n";
static volatile uint16_t high;

ISR(TIMER1_OVF_vect)
{
    high++;
}

static void put(char c)
{
    while (!(UCSR0A & (1 << UDRE0))) continue;
    UDR0 = (uint8_t)c;
}

static void put_text(const char *text)
{
    while (*text) put(*text++);
    put(' ');
}

static void put_number(uint32_t number)
{
    char digits[11];
    uint8_t count = 0;
    do digits[count++] = (char)('0' + number % 10), number /= 10; while (number);
    while (count) put(digits[--count]);
    put(' ');
}

static void trap(void)
{
    monitor_trap(table, words, room, sizeof room / 2, &r);
}
static void quick(void)
{
    monitor_quick(table, words, room, sizeof room / 2, &r);
}
static void walked(void)
{
    struct monitor_walk walk;
    monitor_trap_walked(table, words, room, sizeof room / 2, &r, &walk);
}
static void sound(void)
{
    monitor_sound(table, words);
}
static void why(void)
{
    monitor_why(table, words);
}
static void stuck(void)
{
    struct monitor_stuck_report report;
    monitor_stuck(table, words, room, 32, 1, &report);
}
static void rings(void)
{
    struct monitor_rings_report report;
    monitor_rings(table, words, room, 48, &report);
}
static void shown(void)
{
    monitor_screen(table, words, screen, MONITOR_PROCESSES_MOST);
}
static void lay_out(void)
{
    monitor_layout(list, MONITOR_ENTRY_WORDS * processes, 1, counters, semaphores, table, words);
}

static void make(void)
{
    delays_make(queue, DELAYS_WORDS(MONITOR_PROCESSES_MOST), processes);
}
static void wait(void)
{
    delays_wait(queue, DELAYS_WORDS(MONITOR_PROCESSES_MOST), processes, 9);
}
static void leave(void)
{
    delays_leave(queue, DELAYS_WORDS(MONITOR_PROCESSES_MOST), processes);
}
static void tick(void)
{
    delays_tick(queue, DELAYS_WORDS(MONITOR_PROCESSES_MOST), room, MONITOR_PROCESSES_MOST);
}
static void left(void)
{
    delays_left(queue, DELAYS_WORDS(MONITOR_PROCESSES_MOST), processes);
}
static void in_order(void)
{
    delays_shown(queue, DELAYS_WORDS(MONITOR_PROCESSES_MOST));
}
static void read_tape(void)
{
    tape_read(TAPE_BINARY, tape, sizeof tape, codes, sizeof codes / 2, 0, area, sizeof area);
}
static void differ(void)
{
    size_t count;
    compare_differences(one, sizeof one - 1, two, sizeof two - 1, differences, sizeof differences / 8, &count);
}
static void rest(void)
{
    size_t start;
    compare_rest(one, sizeof one - 1, two, sizeof two - 1, &start);
}

/* The cycles of an entry, and the bytes of stack it used. */
static void measure(const char *name, void (*entry)(void))
{
    uint8_t *low = (uint8_t *)(SP - PAINTED);
    for (uint8_t *place = low; place < (uint8_t *)SP - 8; place++) *place = PAINT;
    TCNT1 = 0, TIFR1 = 1 << TOV1, high = 0;
    sei();
    entry();
    cli();
    uint16_t count = TCNT1;
    if (TIFR1 & 1 << TOV1 && count < 32768u) high++;
    uint16_t used = PAINTED;
    while (used > 0 && *low == PAINT) low++, used--;
    put_text(name), put_number(processes), put_number(buffers), put_number(semaphores);
    put_number(((uint32_t)high * 65536u + count) * STEP), put_number(used);
    put('\n');
}

static void call(uint16_t number, uint16_t a, uint16_t b)
{
    r = (struct monitor_registers){ .call = number, .a = a, .b = b, .w = { 1, 2, 3, 4 } };
}

/* All started, each waiting for an event with a delay but the first, which has sent every buffer it has. */
static void station(uint16_t p, uint16_t b, uint16_t s)
{
    processes = p, buffers = b, semaphores = s, words = MONITOR_TABLE_WORDS(p, b, s);
    for (uint16_t i = 0; i < p; i++) {
        uint16_t *entry = list + MONITOR_ENTRY_WORDS * i;
        entry[0] = 5, entry[1] = i == 0 ? (uint16_t)(b - (p - 1)) : 1, entry[2] = (uint16_t)(0x4141 + i), entry[3] = entry[4] = 0;
    }
    for (uint16_t i = 0; i < s; i++) counters[i] = 1;
    lay_out();
    for (uint16_t i = p; i > 0; i--) call(MONITOR_START, i, 0), trap();
    for (uint16_t i = 1; i < p; i++) call(MONITOR_WAIT_EVENT, 1000, 0), trap();
}

static void calls(void)
{
    measure("layout", lay_out);
    for (uint16_t i = processes; i > 0; i--) call(MONITOR_START, i, 0), trap();
    for (uint16_t i = 1; i < processes; i++) call(MONITOR_WAIT_EVENT, 1, 0), trap();
    call(MONITOR_SEND, 1, 0), measure("send", trap);
    call(MONITOR_SEND, 2, 0), measure("send-quick", quick);
    call(MONITOR_SEND, 3, 0), measure("send-walked", walked);
    measure("sound", sound);
    call(MONITOR_TICK, 0, 0), measure("tick", trap);
    for (uint16_t i = 1; i < processes; i++) call(MONITOR_WAIT_EVENT, 1, 0), trap();
    call(MONITOR_TICK, 0, 0), measure("tick-quick", quick);
    call(MONITOR_LIST, 1, 0), measure("list", trap);
    call(MONITOR_CLEAN, 1, 0), measure("clean", trap);
    measure("stuck", stuck), measure("rings", rings), measure("screen", shown), measure("why", why);
}

/* The second clock with all waiting, the tape reader over 64 characters that are delivered, and two logs of three lines. */
static void others(void)
{
    make();
    for (uint16_t i = 1; i < processes; i++) delays_wait(queue, DELAYS_WORDS(MONITOR_PROCESSES_MOST), i, i);
    measure("delays-wait", wait), measure("delays-left", left), measure("delays-shown", in_order), measure("delays-leave", leave);
    measure("delays-tick", tick), measure("delays-make", make);
    for (uint8_t i = 0; i < sizeof tape; i++) tape[i] = i, codes[i] = TAPE_ENTRY(TAPE_NORMAL, i);
    measure("tape-read", read_tape), measure("compare-differences", differ), measure("compare-rest", rest);
}

int main(void)
{
    UCSR0B = 1 << TXEN0;
    TCCR1B = 1 << CS11 | 1 << CS10;
    TIMSK1 = 1 << TOIE1;
    static const uint16_t sizes[][3] = { { 4, 8, 1 }, { 8, 32, 2 }, { 32, 128, 16 } };
    for (uint8_t i = 0; i < 3; i++) station(sizes[i][0], sizes[i][1], sizes[i][2]), calls(), others();
    cli();
    sleep_enable();
    sleep_cpu();
    return 0;
}
