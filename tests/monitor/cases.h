/*
 * Outside vectors with a case a line, each an object of numbers and lists of numbers, all decimal. What
 * can't be read ends the program with 2.
 */
#ifndef CASES_H
#define CASES_H

#include <stddef.h>
#include <stdio.h>

/* The file named on the command line, and the next case of it; NULL behind the last. */
FILE *open_cases(int arguments, char **argument);
const char *next_case(FILE *file);

/* Which case that was, from 1. */
unsigned case_number(void);

/* The number behind a key; the numbers of the list behind one, into room for so many, and their count; and
 * a list that has to have so many. A list of lists is read as one. */
long read_number(const char *line, const char *key);
size_t read_list(const char *line, const char *key, long *into, size_t most);
void read_exactly(const char *line, const char *key, long *into, size_t count);

/* Says how many of the cases, all read, agreed; gives the exit code. */
int cases_told(unsigned disagreed, const char *what);

#endif
