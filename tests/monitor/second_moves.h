/*
 * What the calls of the second implementation are made of, in the words of docs/MONITOR.md, 5. Each assumes that
 * its numbers name records there are.
 */
#ifndef SECOND_MOVES_H
#define SECOND_MOVES_H

#include "second.h"

/* Buffer b goes last in p's event queue, and out of it wherever it stands. */
void append(uint16_t *t, unsigned p, unsigned b);
void unlink_buffer(uint16_t *t, unsigned p, unsigned b);

/* p goes last in the queue of semaphore s, which its word 15 then names, and out of it again. */
void wait_last(uint16_t *t, unsigned s, unsigned p);
void wait_no_more(uint16_t *t, unsigned p);

/* Process p leaves the running queue, if it is there. */
void leave_running(uint16_t *t, unsigned p);

/* p leaves the running queue and enters again behind its equals. */
void requeue(uint16_t *t, unsigned p);

/* "Waking p: state 1, words 6 to 8 and its device word 0, reason set, into the running queue behind
 * all of equal or higher priority." */
void wake(uint16_t *t, unsigned p, unsigned reason);

/* "out of running queue and waits, state 0, words 0, 1, 6 to 8 and its device word 0; event queue
 * kept"; "stopping or cleaning a waiter takes it from the queue and adds one to the counter". */
void stop(uint16_t *t, unsigned p);

/* "Freeing a buffer sets its standing, links, receiver and message words to 0", and its age, which is
 * "0 when free". */
void free_buffer(uint16_t *t, unsigned b);

void set_words(uint16_t *t, unsigned b, const uint16_t *w);

/* "words replaced, standing 3, last in the owner's event queue; an owner in state 2, or in state 3
 * for this buffer, wakes, reason 1". */
void answer(uint16_t *t, unsigned b, const uint16_t *w);

#endif
