/*
 * The monitor's trap entry, for programs in C99, C++11 and what is newer: of the C library <stddef.h> and <stdint.h>
 * are enough. Beside it calls.h has each call as a function, log.h what a station logs, and table.h, which is part of
 * this one, where each word of a table stands.
 *
 * Link with libelvomike-trap.a on x86-64 (System V), or with what source/ makes for any processor. The monitor keeps
 * nothing of its own: its whole state is the table, a run of 16-bit words that you own and lend to each call. There
 * is no allocation, no global and no hidden pointer; nothing lent is kept after a call returns. Two calls may run at
 * once if they lend different tables.
 *
 *     uint16_t list[] = { 5, 1, 0x4100, 0, 0,      A: priority 5, 1 buffer, name "A"
 *                         3, 0, 0x4200, 0, 0 };    B: priority 3, no buffers, name "B"
 *     uint16_t counters[] = { 1 };                 one semaphore, which lets one process in at a time
 *     uint16_t table[MONITOR_TABLE_WORDS(2, 1, 1)], room[MONITOR_LISTING_WORDS * 1];
 *     monitor_layout(list, 10, MONITOR_EDITION_FIRST, counters, 1, table, MONITOR_TABLE_WORDS(2, 1, 1));
 *     struct monitor_registers r = { .call = MONITOR_START, .a = 1 };
 *     monitor_trap(table, MONITOR_TABLE_WORDS(2, 1, 1), room, MONITOR_LISTING_WORDS * 1, &r);
 *
 * Lengths count words, not bytes. No pointer may be NULL, not even one to no words. The table, the room, the lists,
 * the record and a report must not overlap. Whatever else is lent or asked for, a call comes back: done, or with the
 * number of a refusal and not one lent word changed.
 */
#ifndef MONITOR_H
#define MONITOR_H

#include <stddef.h>
#include <stdint.h>

#include "table.h"

#ifdef __cplusplus
extern "C" {
#endif

/* The version of the headers and archives, as a number and as text: #if MONITOR_VERSION < MONITOR_VERSION_OF(0, 2, 0) */
#define MONITOR_VERSION_OF(major, minor, patch) ((major) * 10000 + (minor) * 100 + (patch))
#define MONITOR_VERSION MONITOR_VERSION_OF(0, 2, 0)
#define MONITOR_VERSION_TEXT "0.2.0"

/* Words a process takes in a layout list, and a buffer in a listing: a row, which is buffer, owner,
 * receiver, standing (an enum monitor_standing) and age. */
#define MONITOR_ENTRY_WORDS 5u
#define MONITOR_LISTING_WORDS 5u

/* Words of room that are always enough for monitor_stuck, and for monitor_rings. */
#define MONITOR_STUCK_WORDS_MOST 32u
#define MONITOR_RINGS_WORDS_MOST 48u

/*
 * The calls. 'The caller' is the current process, first of the running queue; calls 1 to 5, 0C and
 * 0D are its own. Parts of the record that a call doesn't name are ignored. Delay 0 is no limit; delay 1
 * ends at the first tick. A process that was woken asks for its wait again, but for one woken by a raise: its
 * lower is done.
 */
enum monitor_call {
    /* Sends w to process a in the caller's lowest free buffer, which the answer's 'buffer' names. */
    MONITOR_SEND = 0x01,
    /* Waits for the answer in own buffer a. If it is there: kind 2, buffer, r, and the buffer is
     * free again. If not: kind 0, and the caller waits. */
    MONITOR_WAIT_ANSWER = 0x02,
    /* Takes the first event, waiting at most a ticks. A message: kind 1, buffer, r, and the caller
     * holds the buffer. An answer: kind 2, buffer, r, and the buffer is free again. None: kind 0,
     * and the caller waits. */
    MONITOR_WAIT_EVENT = 0x03,
    /* Answers held buffer a with w. If its owner was cleaned since, the buffer is just freed. */
    MONITOR_SEND_ANSWER = 0x04,
    /* Waits for an interrupt from device a, at most b ticks. In the second edition, if one is kept for
     * the device: kind 3, it is kept no longer, and the caller runs on; the delay is ignored. Else:
     * kind 0, and the caller waits. */
    MONITOR_WAIT_INTERRUPT = 0x05,
    /* Starts stopped process a. */
    MONITOR_START = 0x06,
    /* Stops process a; its event queue is kept. */
    MONITOR_STOP = 0x07,
    /* Stops process a if need be and ends all its conversations: its own buffers are freed, or
     * orphaned where another holds them; messages it has not answered are answered with 8000 hex.
     * Kind: how many buffers changed their standing. */
    MONITOR_CLEAN = 0x08,
    /* A tick of the clock: delays fall by one and those that end wake their process. Then the process
     * that was current goes behind the others of its priority, so that each gets its slice. Every
     * buffer that isn't free is a tick older; an age of 65,535 stays. Kind: how many woke. */
    MONITOR_TICK = 0x09,
    /* Device a interrupts: its waiter wakes, in front of the running processes of its own priority.
     * (Every other wake goes behind them.) Kind: the waiter's number, 0 if there was none; in the
     * second edition the interrupt is then kept, and a further one changes nothing. No stop, clean or
     * tick ends its keeping. */
    MONITOR_INTERRUPT = 0x0A,
    /* Lists the buffers not free with owner or receiver a into the room, by rising number, five
     * words each: buffer, owner, receiver, standing, age. Kind: how many. */
    MONITOR_LIST = 0x0B,
    /* Takes one off the counter of semaphore a. If that leaves it below zero, the caller waits, last in the
     * semaphore's queue: without limit, and no message, tick or interrupt wakes it. Stopping or cleaning it
     * takes it from the queue and gives the counter its one back; nobody is woken by that. */
    MONITOR_LOWER = 0x0C,
    /* Adds one to the counter of semaphore a. If somebody waits there, the longest waiter wakes, behind the
     * running processes of its own priority. */
    MONITOR_RAISE = 0x0D
};

/*
 * What the answer's number says. A refused call changes no word of the table or the room, and the
 * other parts of its answer are 0. Where several apply, the one that stands first here is given.
 * Beside the calls, monitor_stuck gives 1, 4, 7 and 10, and monitor_rings 1 and 10, as is said there.
 */
enum monitor_refusal {
    MONITOR_DONE = 0,
    MONITOR_NO_SUCH_CALL = 13,      /* the call's number isn't 1 to 0D hex */
    MONITOR_TABLE_NOT_SOUND = 1,    /* the lent words are no sound table */
    MONITOR_NO_CURRENT = 2,         /* calls 1 to 5, 0C and 0D hex: no process runs */
    MONITOR_NO_SUCH_DEVICE = 3,     /* the device's number is above 63 */
    MONITOR_NO_SUCH_PROCESS = 4,    /* the process's number isn't 1 to P */
    MONITOR_SENT_TO_ONESELF = 8,    /* send: the receiver is the caller */
    MONITOR_NO_FREE_BUFFER = 5,     /* send: no own buffer of the caller is free */
    MONITOR_WRONG_BUFFER = 6,       /* no such buffer, or not one the caller may wait for or answer */
    MONITOR_WRONG_STATE = 7,        /* start of a process not stopped, stop of a stopped one */
    MONITOR_DEVICE_TAKEN = 9,       /* wait interrupt: another process waits for the device */
    MONITOR_ROOM_TOO_SHORT = 10,    /* listing: under five words for each buffer to be shown */
    MONITOR_WRONG_LIST = 11,        /* layout: see monitor_layout */
    MONITOR_TABLE_TOO_SHORT = 12,   /* layout: the table has too few words for the lists */
    MONITOR_NO_SUCH_SEMAPHORE = 19, /* the semaphore's number isn't 1 to as many as there are */
    MONITOR_COUNTER_FULL = 20       /* raise: the counter is 32,767 */
};

/* What a number of refusal says, in a person's words; of another number, that it has no name here. */
static inline const char *monitor_refusal_text(unsigned number)
{
    switch (number) {
    case MONITOR_DONE: return "done";
    case MONITOR_TABLE_NOT_SOUND: return "the table is not sound";
    case MONITOR_NO_CURRENT: return "no process runs that could make the call";
    case MONITOR_NO_SUCH_DEVICE: return "there is no such device";
    case MONITOR_NO_SUCH_PROCESS: return "there is no such process";
    case MONITOR_NO_FREE_BUFFER: return "the sender has no free buffer";
    case MONITOR_WRONG_BUFFER: return "the caller may neither wait for that buffer nor answer it";
    case MONITOR_WRONG_STATE: return "the process's state doesn't allow it";
    case MONITOR_SENT_TO_ONESELF: return "a process can't send to itself";
    case MONITOR_DEVICE_TAKEN: return "another process waits for the device";
    case MONITOR_ROOM_TOO_SHORT: return "the room is too short for the listing";
    case MONITOR_WRONG_LIST: return "the layout is not a legal one";
    case MONITOR_TABLE_TOO_SHORT: return "the table is too short for the layout";
    case MONITOR_NO_SUCH_SEMAPHORE: return "there is no such semaphore";
    case MONITOR_COUNTER_FULL: return "the semaphore's counter is at its end";
    case MONITOR_NO_SUCH_CALL: return "there is no such call";
    default: return "a refusal that has no name here";
    }
}

/* The kinds of an answer to MONITOR_WAIT_ANSWER, MONITOR_WAIT_EVENT and MONITOR_WAIT_INTERRUPT. */
enum monitor_kind {
    MONITOR_KIND_WAITS = 0,
    MONITOR_KIND_MESSAGE = 1,
    MONITOR_KIND_ANSWER = 2,
    MONITOR_KIND_KEPT = 3
};

/* The register record. The first seven words go in and stay; the last eight are the answer. */
struct monitor_registers {
    uint16_t call;    /* an enum monitor_call */
    uint16_t a;       /* first part: process, buffer, device, delay or semaphore */
    uint16_t b;       /* second part: delay of MONITOR_WAIT_INTERRUPT */
    uint16_t w[4];    /* the four words of a message or an answer */
    uint16_t number;  /* MONITOR_DONE or an enum monitor_refusal */
    uint16_t kind;    /* see each call */
    uint16_t buffer;  /* the buffer sent, taken or collected */
    uint16_t current; /* the current process after the call, 0 if none runs */
    uint16_t r[4];    /* the four words taken or collected */
};

/*
 * Does the call that the record names on the lent table. The room is where MONITOR_LIST writes;
 * any other call leaves it alone. Any words at all may be lent: a table that isn't sound is
 * refused with MONITOR_TABLE_NOT_SOUND and nothing is changed. A table of another edition than the two
 * isn't sound, nor one of the first that has MONITOR_KEPT for a device.
 */
void monitor_trap(uint16_t *table, size_t table_words, uint16_t *room, size_t room_words,
                  struct monitor_registers *registers);

/* Gives 1 if the words are a sound table, which every call asks first, and 0 if not; see quick.h. */
uint16_t monitor_sound(const uint16_t *table, size_t table_words);

/* How far those walked that a call put into the running queue: whoever woke or was started passes the
 * running processes of its own priority or a higher one (of a higher one only, if an interrupt woke it).
 * A refused call, and one that puts nobody there, leaves 0 in each. */
struct monitor_walk {
    uint16_t entries; /* how many entered by a wake or a start */
    uint16_t passed;  /* the records they passed together: by one tick at most 496, by one clean 465 */
    uint16_t most;    /* the most that one of them passed: at most 31 */
    uint16_t moved;   /* the records passed by the process that a tick put behind its equals */
};

/* The same as monitor_trap, and tells the walk. It stands in a library of its own, libelvomike-walks.a, to be
 * linked beside libelvomike-trap.a, so that whoever doesn't ask for these numbers pays nothing for them. */
void monitor_trap_walked(uint16_t *table, size_t table_words, uint16_t *room, size_t room_words,
                         struct monitor_registers *registers, struct monitor_walk *walk);

/*
 * Lays out a table of that edition (an enum monitor_edition), whatever it held before: all processes
 * stopped, all buffers free, no interrupt kept. The list has five words a process, in the order of
 * their numbers: priority (1 to 255), how many buffers it owns, and three words of name (1 to 5
 * non-zero bytes, left byte of a word first, then zeros). The counters have a word a semaphore, in the order
 * of their numbers: how many may lower it before one waits (0 to 32,767). For none lend any pointer. Gives
 * MONITOR_DONE; MONITOR_WRONG_LIST if the list is empty, not in fives, has over 32 processes or 128
 * buffers, a bad priority, or a bad or repeated name, if the edition is another, or if there are over 16
 * counters or one above 32,767; MONITOR_TABLE_TOO_SHORT if the table has too few words. A refused layout
 * changes nothing.
 */
uint16_t monitor_layout(const uint16_t *list, size_t list_words, uint16_t edition, const uint16_t *counters,
                        size_t counter_words, uint16_t *table, size_t table_words);

/* What monitor_stuck reports. */
struct monitor_stuck_report {
    uint16_t number; /* MONITOR_DONE or an enum monitor_refusal */
    uint16_t count;  /* how many processes are listed */
    uint16_t ring;   /* 1 if the waiting goes round for ever, else 0 */
};

/*
 * Who is stuck behind whom: lists into the room, one word each, the process, whom it waits for, whom
 * that one waits for, and so on. A process in MONITOR_STATE_WAITS_ANSWER waits for the receiver of its
 * buffer. The last listed is one in another state; or it waits for one that is listed already, and
 * the report says that there is a ring. The table is never changed, nor the room behind the list.
 * Refused, in this order, with the room unchanged, count 0 and ring 0: MONITOR_TABLE_NOT_SOUND,
 * MONITOR_NO_SUCH_PROCESS, MONITOR_WRONG_STATE if the process isn't in MONITOR_STATE_WAITS_ANSWER, and
 * MONITOR_ROOM_TOO_SHORT. MONITOR_STUCK_WORDS_MOST words of room are always enough.
 */
void monitor_stuck(const uint16_t *table, size_t table_words, uint16_t *room, size_t room_words,
                   uint16_t process, struct monitor_stuck_report *report);

/* What monitor_rings reports. */
struct monitor_rings_report {
    uint16_t number; /* MONITOR_DONE or an enum monitor_refusal */
    uint16_t rings;  /* how many rings there are */
    uint16_t words;  /* how many words were written */
};

/*
 * All rings of the station: the processes that wait, through others, for themselves, and that only a
 * stop or a clean sets free. Each ring is written once: its lowest process, whom that one waits for,
 * and so on round, and then a 0. Rings come by rising lowest process. The table is never changed,
 * nor the room behind the words written. Refused, with the room unchanged and zeros besides:
 * MONITOR_TABLE_NOT_SOUND, MONITOR_ROOM_TOO_SHORT. MONITOR_RINGS_WORDS_MOST words of room are always
 * enough. After a stop or a clean of any member its ring is gone.
 */
void monitor_rings(const uint16_t *table, size_t table_words, uint16_t *room, size_t room_words,
                   struct monitor_rings_report *report);

#ifdef __cplusplus
}
#endif

#endif
