/*
 * The port for an 8-bit AVR, the ATmega1284P at 16 MHz; tried in simavr. It has no trap instruction and one stack
 * pointer: whoever leaves, by a trap or by an interrupt, puts all its registers on its own stack, the call is made on
 * the stack that main had, and the registers of whoever goes on are taken back. Interrupts are off from the one to the
 * other, so that none comes in the middle of a call. The tick is timer 1, the printer USART 0, which interrupts as
 * device PORT_PRINTER; there is no screen. Process 0 is what runs when nobody does.
 */
#include "port.h"

#include <avr/interrupt.h>
#include <avr/io.h>
#include <avr/sleep.h>

enum { STACK_BYTES = 768, PAINTED = 8, PAINT = 0x5A, PROCESSES_MOST = 5, REGISTER_BYTES = 34 };
enum { TICK_COUNTS = 5000 }; /* of 64 cycles: 20 milliseconds; a tick that looks the table over takes one or two */

static uint8_t stack[PROCESSES_MOST + 1][STACK_BYTES];
static uint8_t *saved[PROCESSES_MOST + 1]; /* the stack pointer of each that doesn't run */
static uint8_t on;                         /* whose registers are in the processor */
uint8_t *left_at;                          /* the stack pointer of who has just left, and then of who goes on */
uint8_t *main_stack;

/* r0, the status with interrupts off, the upper bits of table addresses, r1 to r31; then the stack pointer is kept, and
 * that of main taken. Compiled code wants r1 to be 0. */
#define LEAVE                                                                                                       \
    "push r0\n cli\n in r0, __SREG__\n push r0\n in r0, 0x3B\n push r0\n push r1\n clr r1\n"                         \
    "push r2\n push r3\n push r4\n push r5\n push r6\n push r7\n push r8\n push r9\n push r10\n push r11\n push r12\n" \
    "push r13\n push r14\n push r15\n push r16\n push r17\n push r18\n push r19\n push r20\n push r21\n push r22\n"    \
    "push r23\n push r24\n push r25\n push r26\n push r27\n push r28\n push r29\n push r30\n push r31\n"               \
    "in r26, __SP_L__\n in r27, __SP_H__\n sts left_at, r26\n sts left_at+1, r27\n"                                 \
    "lds r26, main_stack\n lds r27, main_stack+1\n out __SP_H__, r27\n out __SP_L__, r26\n"

/* The same backwards; reti turns interrupts on, when nothing but the place to go on is left on the stack. */
#define GO_ON                                                                                                       \
    "lds r26, left_at\n lds r27, left_at+1\n out __SP_H__, r27\n out __SP_L__, r26\n"                               \
    "pop r31\n pop r30\n pop r29\n pop r28\n pop r27\n pop r26\n pop r25\n pop r24\n pop r23\n pop r22\n pop r21\n"    \
    "pop r20\n pop r19\n pop r18\n pop r17\n pop r16\n pop r15\n pop r14\n pop r13\n pop r12\n pop r11\n pop r10\n"    \
    "pop r9\n pop r8\n pop r7\n pop r6\n pop r5\n pop r4\n pop r3\n pop r2\n pop r1\n"                              \
    "pop r0\n out 0x3B, r0\n pop r0\n out __SREG__, r0\n pop r0\n reti\n"

/* Behind every call: whoever is current now goes on. */
static void go_on(void)
{
    saved[on] = left_at;
    on = (uint8_t)station_current();
    left_at = saved[on];
}

/* A trap: the record's address is in r24 and r25, where a function's first argument is, and LEAVE keeps it there. */
void trapped(struct monitor_registers *r)
{
    station_trap(r);
    go_on();
}
__attribute__((naked)) void port_trap(struct monitor_registers *r)
{
    (void)r;
    __asm volatile(LEAVE "call trapped\n" GO_ON);
}

void ticked(void)
{
    station_tick();
    go_on();
}
ISR(TIMER1_COMPA_vect, ISR_NAKED) { __asm volatile(LEAVE "call ticked\n" GO_ON); }

void printed(void)
{
    UCSR0B &= (uint8_t)~(1 << TXCIE0);
    station_interrupt(PORT_PRINTER);
    go_on();
}
ISR(USART0_TX_vect, ISR_NAKED) { __asm volatile(LEAVE "call printed\n" GO_ON); }

/* At its first turn a process finds what LEAVE would have left, all zeros, below the place where it begins. */
static void make(unsigned p, void (*begin)(void))
{
    uint8_t *top = stack[p] + STACK_BYTES - 1;
    for (unsigned i = 0; i < PAINTED; i++) stack[p][i] = PAINT;
    *top-- = (uint8_t)((uint16_t)begin & 0xFF);
    *top-- = (uint8_t)((uint16_t)begin >> 8);
    for (unsigned i = 0; i < REGISTER_BYTES; i++) *top-- = 0;
    saved[p] = top;
}

void port_make(unsigned p) { make(p, station_begin); }

bool port_stack_kept(unsigned p)
{
    for (unsigned i = 0; i < PAINTED; i++)
        if (stack[p][i] != PAINT) return false;
    return true;
}

static void idle(void) { for (;;) sleep_mode(); }

void port_run(void)
{
    cli();
    make(0, idle);
    UCSR0B = 1 << TXEN0;
    OCR1A = TICK_COUNTS - 1;
    TIMSK1 = 1 << OCIE1A;
    TCCR1B = 1 << WGM12 | 1 << CS11 | 1 << CS10; /* counts to OCR1A, a 64th of the clock */
    main_stack = (uint8_t *)SP;
    on = (uint8_t)station_current();
    left_at = saved[on];
    __asm volatile(GO_ON);
}

static void put(char c)
{
    while (!(UCSR0A & 1 << UDRE0)) continue;
    UDR0 = (uint8_t)c;
}

/* Only what is sent behind the last character interrupts. */
void port_print(const char *line)
{
    while (*line != 0) put(*line++);
    while (!(UCSR0A & 1 << UDRE0)) continue;
    cli();
    UCSR0A |= 1 << TXC0; /* written as 1 it is cleared */
    UCSR0B |= 1 << TXCIE0;
    UDR0 = '\n';
    sei();
}

void port_show(const char *line) { (void)line; }

/* Asleep with interrupts off, for good; simavr ends there. */
void port_end(void)
{
    cli();
    sleep_mode();
}

void port_halt(const char *why)
{
    cli();
    UCSR0B = 1 << TXEN0;
    while (*why != 0) put(*why++);
    put('\n');
    port_end();
}

/* No log is kept here. */
void port_laid_out(const uint16_t *list, size_t words) { (void)list, (void)words; }
void port_noted(const struct monitor_registers *done, const uint16_t *room) { (void)done, (void)room; }
