/* A conversion table as text: ./tape --help says how it is written. */
#ifndef TABLE_H
#define TABLE_H

#include <stddef.h>
#include <stdint.h>

#include "elvomike/tape.h"

/* Reads the table in the file; gives its number of words, one more than the highest place named.
 * Whatever is wrong ends the program. */
size_t read_table(const char *name, uint16_t table[TAPE_TABLE_WORDS_MOST]);

#endif
