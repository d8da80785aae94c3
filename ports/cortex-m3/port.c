/*
 * The port for a Cortex-M3, the LM3S6965 as QEMU's machine lm3s6965evb has it; a real one wants its pins and its baud
 * rate set besides. Processes run in thread mode on stacks of their own (PSP). A trap is SVC, the tick is SysTick, the
 * printer is UART 0 and interrupts as device PORT_PRINTER, the screen is UART 1; each handler makes its call on the
 * main stack, and has PendSV go over to whoever is current then. All have the same priority, so that none comes in the
 * middle of another. Process 0 is what runs when nobody does.
 */
#include "port.h"

enum { STACK_WORDS = 256, PAINTED = 4, PROCESSES_MOST = 8, TICK_CYCLES = 12000, INTERRUPT_OF_UART = 5 };
enum { PAINT = 0x5A5A5A5A, THUMB = 0x01000000, FRAME_WORDS = 16 };

#define REGISTER(address) (*(volatile uint32_t *)(address))
#define UART_OF_PRINTER 0x4000C000u
#define UART_OF_SCREEN 0x4000D000u
#define UART_DATA(uart) REGISTER(uart)
#define UART_FLAGS(uart) REGISTER((uart) + 0x18)
#define UART_MASK(uart) REGISTER((uart) + 0x38)
#define UART_CLEAR(uart) REGISTER((uart) + 0x44)
enum { UART_FULL = 0x20, UART_SENT = 0x20 };
#define SYSTICK_CONTROL REGISTER(0xE000E010)
#define SYSTICK_RELOAD REGISTER(0xE000E014)
#define SYSTICK_NOW REGISTER(0xE000E018)
#define INTERRUPTS_ON REGISTER(0xE000E100)
#define PENDING REGISTER(0xE000ED04)
enum { PENDING_SWITCH = 1 << 28 };

static uint32_t stack[PROCESSES_MOST + 1][STACK_WORDS];
static uint32_t *saved[PROCESSES_MOST + 1]; /* where the stack of each that doesn't run has its registers */
static unsigned on;                         /* whose registers are in the processor */

/* At its first turn a process finds what a switch would have left: r4 to r11, then what the processor stacks itself at
 * an exception, r0 to r3, r12, lr, the place to go on, and the status, in which the bit for Thumb must be set. */
void port_make(unsigned p)
{
    uint32_t *frame = stack[p] + STACK_WORDS - FRAME_WORDS;
    for (unsigned i = 0; i < PAINTED; i++) stack[p][i] = PAINT;
    for (unsigned i = 0; i < FRAME_WORDS; i++) frame[i] = 0;
    frame[FRAME_WORDS - 2] = (uint32_t)station_begin;
    frame[FRAME_WORDS - 1] = THUMB;
    saved[p] = frame;
}

bool port_stack_kept(unsigned p)
{
    for (unsigned i = 0; i < PAINTED; i++)
        if (stack[p][i] != PAINT) return false;
    return true;
}

/* The record's address goes in r0; SVC stacks it, and the handler finds it there. */
void port_trap(struct monitor_registers *r)
{
    register struct monitor_registers *lent __asm("r0") = r;
    __asm volatile("svc 0" : "+r"(lent) : : "memory");
}

/* Behind every call: where another is current now, PendSV follows as soon as the handler is left. */
static void go_on(void) { PENDING = station_current() != on ? PENDING_SWITCH : 0; }

/* The handlers, which stand in the vectors of start.c. SVC: the process's stack pointer is the address of what the processor stacked, r0 first. */
void trapped(uint32_t *stacked)
{
    station_trap((struct monitor_registers *)stacked[0]);
    go_on();
}
__attribute__((naked)) void handle_svc(void) { __asm volatile("mrs r0, psp\n b trapped"); }

void handle_systick(void)
{
    station_tick();
    go_on();
}

void handle_uart(void)
{
    UART_MASK(UART_OF_PRINTER) = 0;
    station_interrupt(PORT_PRINTER);
    go_on();
}

/* PendSV: the processor has stacked half of the registers of whoever leaves; r4 to r11 go behind them. The same of
 * whoever goes on is taken back, and leaving the handler (lr, kept meanwhile) takes the rest. */
uint32_t *switched(uint32_t *left)
{
    saved[on] = left;
    on = station_current();
    return saved[on];
}
__attribute__((naked)) void handle_pendsv(void)
{
    __asm volatile("mrs r0, psp\n stmdb r0!, {r4-r11}\n push {r4, lr}\n bl switched\n"
                   "pop {r4, lr}\n ldmia r0!, {r4-r11}\n msr psp, r0\n bx lr");
}

/* Whoever called station_run becomes process 0, on its stack (CONTROL's bit 1 chooses PSP), and sleeps for ever. */
void port_run(void)
{
    __asm volatile("cpsid i"); /* no handler before it has */
    INTERRUPTS_ON = 1u << INTERRUPT_OF_UART;
    SYSTICK_RELOAD = TICK_CYCLES - 1;
    SYSTICK_NOW = 0;
    SYSTICK_CONTROL = 7; /* on, with interrupts, by the processor's clock */
    PENDING = station_current() != 0 ? PENDING_SWITCH : 0;
    __asm volatile("msr psp, %0\n mov r0, #2\n msr control, r0\n isb\n cpsie i\n"
                   "0: wfi\n b 0b" : : "r"(stack[0] + STACK_WORDS) : "r0");
}

static void put(uint32_t uart, char c)
{
    while (UART_FLAGS(uart) & UART_FULL) continue;
    UART_DATA(uart) = (unsigned char)c;
}

/* Only what is sent behind the last character interrupts. */
void port_print(const char *line)
{
    while (*line != 0) put(UART_OF_PRINTER, *line++);
    UART_CLEAR(UART_OF_PRINTER) = UART_SENT;
    UART_MASK(UART_OF_PRINTER) = UART_SENT;
    put(UART_OF_PRINTER, '\n');
}

void port_show(const char *line)
{
    while (*line != 0) put(UART_OF_SCREEN, *line++);
    put(UART_OF_SCREEN, '\n');
}

/* A debugger or QEMU takes it as the program's end, well (0x20026) or not (0x20023); a board alone stays here. */
static void leave(uint32_t how)
{
    register uint32_t what __asm("r0") = 0x18, code __asm("r1") = how;
    __asm volatile("bkpt 0xAB\n 0: b 0b" : : "r"(what), "r"(code));
}

void port_end(void) { leave(0x20026); }

void port_halt(const char *why)
{
    __asm volatile("cpsid i");
    port_show(why);
    leave(0x20023);
}

/* No log is kept here. */
void port_laid_out(const uint16_t *list, size_t words) { (void)list, (void)words; }
void port_noted(const struct monitor_registers *done, const uint16_t *room) { (void)done, (void)room; }
