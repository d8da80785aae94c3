/*
 * What a Cortex-M3 begins with: the vectors, and memory made ready for C; and two functions that compilers call by
 * themselves. Assumes link.ld, and that reset finds both UARTs without a clock.
 */
#include <stddef.h>
#include <stdint.h>

extern uint32_t data_begins, data_ends, data_in_flash, bss_begins, bss_ends, stack_top;
int main(void);
void handle_svc(void);
void handle_pendsv(void);
void handle_systick(void);
void handle_uart(void);

enum { UART_0_AND_1 = 3, UART_ON = 0x301 };
#define CLOCK_OF_UARTS (*(volatile uint32_t *)0x400FE104)
#define CONTROL_OF_UART(n) (*(volatile uint32_t *)(0x4000C030 + 0x1000 * (n)))

void *memset(void *to, int byte, size_t bytes)
{
    volatile unsigned char *at = to;
    while (bytes-- > 0) *at++ = (unsigned char)byte;
    return to;
}

void *memcpy(void *to, const void *from, size_t bytes)
{
    volatile unsigned char *at = to;
    const unsigned char *take = from;
    while (bytes-- > 0) *at++ = *take++;
    return to;
}

static void reset(void)
{
    memcpy(&data_begins, &data_in_flash, (size_t)((char *)&data_ends - (char *)&data_begins));
    memset(&bss_begins, 0, (size_t)((char *)&bss_ends - (char *)&bss_begins));
    CLOCK_OF_UARTS |= UART_0_AND_1;
    for (unsigned n = 0; n < 2; n++) CONTROL_OF_UART(n) = UART_ON;
    main();
    for (;;) continue;
}

/* A fault: nothing goes on, and a debugger finds it here. */
static void fault(void)
{
    for (;;) continue;
}

/* The top of the main stack, reset, the faults, SVC, PendSV, SysTick; then the devices' interrupts, UART 0 as the sixth. */
__attribute__((section(".vectors"), used)) static const void *const vectors[] = {
    &stack_top, (void *)reset, (void *)fault, (void *)fault, (void *)fault, (void *)fault, (void *)fault, NULL,
    NULL, NULL, NULL, (void *)handle_svc, (void *)fault, NULL, (void *)handle_pendsv, (void *)handle_systick,
    NULL, NULL, NULL, NULL, NULL, (void *)handle_uart,
};
