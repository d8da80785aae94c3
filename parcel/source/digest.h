/* One number over what the libraries answer to calls drawn from a seed: the same wherever the libraries do the same. */
#ifndef DIGEST_H
#define DIGEST_H
#include <stdint.h>

/* So many rounds: each draws a call of the monitor, and every eighth why a table isn't sound, the reports, the screen, the second clock, the tape and two logs.
 * Tables are spoiled at times. */
uint32_t digest(uint32_t rounds);

/* How many calls of the last digest were done, and how many refused. */
extern uint32_t digest_done, digest_refused;
#endif
