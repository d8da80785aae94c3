/* What a run of trials met of the two editions: layouts, interrupts lost, kept and given, tables that the edition alone spoils. */
#ifndef EDITIONS_H
#define EDITIONS_H

#include "trial.h"

/* Counts what a trial met, by what the second implementation made of it. */
void note_editions(const struct trial *trial, const struct outcome *outcome);

/* Prints the counts; gives whether everything came up. */
bool editions_told(void);

#endif
