/*
 * A table's words, for C99, C++11 and what is newer: how many there are, where each stands, and what states, reasons and
 * standings are. monitor.h includes it. Assumes nothing of a table's words.
 */
#ifndef MONITOR_TABLE_H
#define MONITOR_TABLE_H

#include <stddef.h>

/* The most processes, buffers and semaphores (numbered from 1) and devices (numbered from 0), and the
 * most that a semaphore's counter can be. */
#define MONITOR_PROCESSES_MOST 32
#define MONITOR_BUFFERS_MOST 128
#define MONITOR_SEMAPHORES_MOST 16
#define MONITOR_DEVICES 64
#define MONITOR_COUNTER_MOST 32767

/* Words a table of so many processes, buffers and semaphores uses: at most 1,928. A longer run may be
 * lent: words beyond are neither read nor changed. */
#define MONITOR_TABLE_WORDS(processes, buffers, semaphores) \
    (72u + 16u * (processes) + 10u * (buffers) + 4u * (semaphores))
#define MONITOR_TABLE_WORDS_MOST \
    MONITOR_TABLE_WORDS(MONITOR_PROCESSES_MOST, MONITOR_BUFFERS_MOST, MONITOR_SEMAPHORES_MOST)

/* A table's edition, chosen when it is laid out. In the second edition an interrupt that comes while
 * nobody waits for its device is kept, and the next to wait for the device is given it at once; in the
 * first it is lost. */
enum monitor_edition { MONITOR_EDITION_FIRST = 0, MONITOR_EDITION_SECOND = 1 };

/*
 * Where each word of a table stands, for a station that wants to read it. Only calls may write there.
 * Of the table: how many processes and buffers it has, the first (who is current) and the last of the
 * running queue, its edition, how many semaphores it has, and who waits for device d: 0 if nobody,
 * MONITOR_KEPT if an interrupt is kept for it.
 */
#define MONITOR_PROCESSES_PLACE 0u
#define MONITOR_BUFFERS_PLACE 1u
#define MONITOR_CURRENT_PLACE 2u
#define MONITOR_RUNNING_LAST_PLACE 3u
#define MONITOR_EDITION_PLACE 4u
#define MONITOR_SEMAPHORES_PLACE 5u
#define MONITOR_DEVICE_PLACE(d) (8u + (size_t)(d))
#define MONITOR_KEPT 0xFFFFu

/* Of process p: its neighbours in the running queue or at a semaphore, first and last buffer of its event
 * queue, its state (an enum monitor_state), why it last woke (an enum monitor_reason), the ticks left of
 * its delay, the buffer it waits for, the device it waits for plus 1, its priority, its first own buffer
 * and how many it owns, the first of the three words of its name, and the semaphore it waits for. 0 says
 * that there is none. */
#define MONITOR_PROCESS_PLACE(p, word) (72u + 16u * ((size_t)(p) - 1u) + (word))
#define MONITOR_NEXT_RUNNING_PLACE(p) MONITOR_PROCESS_PLACE(p, 0u)
#define MONITOR_PREVIOUS_RUNNING_PLACE(p) MONITOR_PROCESS_PLACE(p, 1u)
#define MONITOR_FIRST_EVENT_PLACE(p) MONITOR_PROCESS_PLACE(p, 2u)
#define MONITOR_LAST_EVENT_PLACE(p) MONITOR_PROCESS_PLACE(p, 3u)
#define MONITOR_STATE_PLACE(p) MONITOR_PROCESS_PLACE(p, 4u)
#define MONITOR_REASON_PLACE(p) MONITOR_PROCESS_PLACE(p, 5u)
#define MONITOR_DELAY_PLACE(p) MONITOR_PROCESS_PLACE(p, 6u)
#define MONITOR_AWAITED_BUFFER_PLACE(p) MONITOR_PROCESS_PLACE(p, 7u)
#define MONITOR_AWAITED_DEVICE_PLACE(p) MONITOR_PROCESS_PLACE(p, 8u)
#define MONITOR_PRIORITY_PLACE(p) MONITOR_PROCESS_PLACE(p, 9u)
#define MONITOR_FIRST_OWN_PLACE(p) MONITOR_PROCESS_PLACE(p, 10u)
#define MONITOR_OWNS_PLACE(p) MONITOR_PROCESS_PLACE(p, 11u)
#define MONITOR_NAME_PLACE(p) MONITOR_PROCESS_PLACE(p, 12u)
#define MONITOR_AWAITED_SEMAPHORE_PLACE(p) MONITOR_PROCESS_PLACE(p, 15u)

/* Of buffer b, in a table of so many processes: its neighbours in an event queue, its owner, its
 * receiver, its standing (an enum monitor_standing), its age (the ticks since it was sent, at most
 * 65,535, and 0 if it is free), and the first of the four words of its message or answer. */
#define MONITOR_BUFFER_PLACE(processes, b, word) \
    (72u + 16u * (size_t)(processes) + 10u * ((size_t)(b) - 1u) + (word))
#define MONITOR_NEXT_EVENT_PLACE(processes, b) MONITOR_BUFFER_PLACE(processes, b, 0u)
#define MONITOR_PREVIOUS_EVENT_PLACE(processes, b) MONITOR_BUFFER_PLACE(processes, b, 1u)
#define MONITOR_OWNER_PLACE(processes, b) MONITOR_BUFFER_PLACE(processes, b, 2u)
#define MONITOR_RECEIVER_PLACE(processes, b) MONITOR_BUFFER_PLACE(processes, b, 3u)
#define MONITOR_STANDING_PLACE(processes, b) MONITOR_BUFFER_PLACE(processes, b, 4u)
#define MONITOR_AGE_PLACE(processes, b) MONITOR_BUFFER_PLACE(processes, b, 5u)
#define MONITOR_WORDS_PLACE(processes, b) MONITOR_BUFFER_PLACE(processes, b, 6u)

/* Of semaphore s, in a table of so many processes and buffers: word i (an enum monitor_semaphore_word). A
 * counter's word is a signed number: MONITOR_COUNTER gives its value, which below zero is minus the number
 * waiting. */
#define MONITOR_SEMAPHORE_PLACE(processes, buffers, s, i) \
    (72u + 16u * (size_t)(processes) + 10u * (size_t)(buffers) + 4u * ((size_t)(s) - 1u) + (i))
#define MONITOR_COUNTER(word) ((int)(word) - ((word) > MONITOR_COUNTER_MOST ? 65536 : 0))
enum monitor_semaphore_word {
    MONITOR_SEMAPHORE_COUNTER = 0,
    MONITOR_SEMAPHORE_FIRST = 1, /* the longest waiter, 0 if none waits */
    MONITOR_SEMAPHORE_LAST = 2,
    MONITOR_SEMAPHORE_ZERO = 3
};

/* A process's state, why it last woke, and a buffer's standing, as the table's words give them. */
enum monitor_state {
    MONITOR_STATE_STOPPED = 0,
    MONITOR_STATE_RUNNING = 1,
    MONITOR_STATE_WAITS_EVENT = 2,
    MONITOR_STATE_WAITS_ANSWER = 3,
    MONITOR_STATE_WAITS_INTERRUPT = 4,
    MONITOR_STATE_WAITS_SEMAPHORE = 5
};
enum monitor_reason {
    MONITOR_NO_REASON = 0,
    MONITOR_WOKEN_BY_EVENT = 1,
    MONITOR_WOKEN_BY_DELAY = 2,
    MONITOR_WOKEN_BY_INTERRUPT = 3,
    MONITOR_WOKEN_BY_RAISE = 5
};
enum monitor_standing {
    MONITOR_FREE = 0,
    MONITOR_QUEUED = 1,   /* in the receiver's event queue */
    MONITOR_HELD = 2,     /* by the receiver, who owes an answer */
    MONITOR_ANSWERED = 3, /* in the owner's event queue */
    MONITOR_ORPHANED = 4  /* held, and the owner was cleaned since */
};

#endif
