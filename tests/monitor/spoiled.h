/*
 * What spoiled.c asks of each spoiled table, in spoiled_listing.c or where another question is asked of them.
 */
#ifndef SPOILED_H
#define SPOILED_H

#include "trial.h"

/* Asks the archive and a second implementation of the trial's table; the trial has a listing of process 1 as its call.
 * Gives whether the table is sound; at a difference prints it, with how and where the table was spoiled, and exits 1. */
bool spoiled_sound(const struct trial *trial, const char *how, size_t place);

#endif
