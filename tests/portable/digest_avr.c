/* Prints the digest of ROUNDS rounds on the serial line of an ATmega1284P, and stops: interrupts off and asleep, which ends simavr. */
#include "digest.h"

#include <avr/interrupt.h>
#include <avr/io.h>
#include <avr/sleep.h>

static void put(char c)
{
    while (!(UCSR0A & (1 << UDRE0))) continue;
    UDR0 = (uint8_t)c;
}

static void put_number(uint32_t number, uint32_t base)
{
    char digits[11];
    uint8_t count = 0;
    do digits[count++] = "0123456789abcdef"[number % base], number /= base; while (number || (base == 16 && count < 8));
    while (count) put(digits[--count]);
}

static void put_text(const char *text)
{
    while (*text) put(*text++);
}

int main(void)
{
    UCSR0B = 1 << TXEN0;
    put_number(digest(ROUNDS), 16);
    put_text(", "), put_number(digest_done, 10), put_text(" done, "), put_number(digest_refused, 10), put_text(" refused\n");
    cli();
    sleep_enable();
    sleep_cpu();
    return 0;
}
