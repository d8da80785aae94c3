/* Both asked why a run of words is no sound table: the archive, on fenced words, and the second implementation. */
#ifndef ASKING_H
#define ASKING_H

#include "trial.h"
#include "elvomike/why.h"

/* How often each clause was told; 0 is a sound table. */
enum { CLAUSES = MONITOR_CLAUSE_DEVICE + 1 };
extern unsigned long told[CLAUSES];

/* Asks both of the table, and the archive's monitor_trap whether it is sound. Gives whether all agree, and counts the
 * clause; where they don't, or a word was written or read that wasn't lent, it prints what each says and the words. */
bool agree(const struct run *table);

/* Ends the program with 1, and with the words asked of, where a word is touched that wasn't lent. */
void watch_faults(void);

#endif
