/*
 * A second implementation of docs/MONITOR.md, 17.6, to run beside the proved one: written from that page's table
 * alone, in the plainest way. Assumes nothing of the words lent.
 */
#ifndef SECOND_WHY_H
#define SECOND_WHY_H

#include "elvomike/why.h"

struct monitor_fault second_why(const uint16_t *table, size_t words);

#endif
