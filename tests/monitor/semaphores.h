/*
 * What a run of trials met of the semaphores: layouts, lowers and raises at each edge of a counter, waiters stopped, cleaned and
 * written to, tables that a semaphore alone spoils.
 */
#ifndef SEMAPHORES_H
#define SEMAPHORES_H

#include "trial.h"

/* Counts what a trial met, by what the second implementation made of it. */
void note_semaphores(const struct trial *trial, const struct outcome *outcome);

/* Prints the counts; gives whether everything came up. */
bool semaphores_told(void);

#endif
