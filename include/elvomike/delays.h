/*
 * A second clock, for C and C++ programs on x86-64 (System V): the delays of waiting processes in a list
 * by time left.
 *
 * Link with libelvomike-delays.a; it needs nothing of the monitor's. The queue is a run of
 * 16-bit words that you own and lend to each call. There is no allocation and no global; nothing lent is
 * kept after a call returns.
 *
 *     uint16_t queue[DELAYS_WORDS(3)], room[3];
 *     delays_make(queue, DELAYS_WORDS(3), 3);
 *     delays_wait(queue, DELAYS_WORDS(3), 2, 1);        process 2 waits, and ends at the first tick
 *     struct delays_ticked t = delays_tick(queue, DELAYS_WORDS(3), room, 3);
 *         ... room[0] to room[t.count - 1] are the processes woken, by rising number
 *
 * Kept beside a monitor's table, it is fed what the calls do: a wait for an event or an interrupt with its
 * delay, each wake, stop and clean of a process as a leave, and each tick. It then wakes the processes that
 * call 09 wakes, in its order, and has the same delay left for each.
 *
 * Lengths count words. No pointer may be NULL. The queue and the room must not overlap. Any words may be
 * lent: words that are no queue are never read or written past their end.
 */
#ifndef DELAYS_H
#define DELAYS_H

#include <stdbool.h>
#include <stddef.h>
#include <stdint.h>

#ifdef __cplusplus
extern "C" {
#endif

/* The most processes; they are numbered from 1. */
#define DELAYS_PROCESSES_MOST 32

/* Words of a queue for so many processes. A longer run may be lent: words beyond are neither read nor
 * changed. Word 0 is the first process of the list, word 1 how many processes there are; of process p word
 * 2p is the one behind it in the list, 0 for none, and word 2p + 1 how much later it ends than the one
 * before it. */
#define DELAYS_WORDS(processes) (2u + 2u * (processes))

/* A delay that isn't one: the process waits without limit, and isn't in the list. */
#define DELAYS_NO_LIMIT 0

/* What a number says. A refused call changes no word. */
enum delays_refusal {
    DELAYS_DONE = 0,
    DELAYS_NO_QUEUE = 1,         /* word 1 isn't 1 to 32, or there are too few words for so many */
    DELAYS_NO_SUCH_PROCESS = 4,  /* the process's number isn't 1 to the number of processes */
    DELAYS_ROOM_TOO_SHORT = 10,  /* tick: the room has fewer words than there are processes */
    DELAYS_WRONG_NUMBER = 11,    /* make: the number of processes isn't 1 to 32 */
    DELAYS_WORDS_TOO_FEW = 12    /* make: too few words for so many processes */
};

/* Makes an empty queue for so many processes. */
uint16_t delays_make(uint16_t *queue, size_t words, uint16_t processes);

/* The process waits, with that delay: 1 ends at the first tick, 0 is no limit. One that waits already waits
 * anew. */
uint16_t delays_wait(uint16_t *queue, size_t words, uint16_t process, uint16_t delay);

/* The process waits no more: it was woken, stopped or cleaned. Nothing changes if it isn't in the list. */
uint16_t delays_leave(uint16_t *queue, size_t words, uint16_t process);

struct delays_ticked {
    uint16_t number; /* DELAYS_DONE or an enum delays_refusal */
    size_t count;    /* how many were woken; 0 of a refused tick */
};

/* The clock ticks. The processes whose delay ends go into the room by rising number, and leave the list;
 * the room's words behind them stay. Where none ends, the first of the list is all that is looked at. */
struct delays_ticked delays_tick(uint16_t *queue, size_t words, uint16_t *room, size_t room_words);

struct delays_delay {
    uint16_t number; /* DELAYS_DONE or an enum delays_refusal */
    uint16_t time;   /* the delay left: 0 without limit, or if the process isn't waiting */
};

struct delays_delay delays_left(const uint16_t *queue, size_t words, uint16_t process);

/* Whether the words show a queue. The calls above don't ask this: they do the same to a queue and to other
 * words, which they follow for as many links as there are processes. Words that a make and then calls alone
 * have written show a queue. */
bool delays_shown(const uint16_t *queue, size_t words);

#ifdef __cplusplus
}
#endif

#endif
