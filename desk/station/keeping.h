/* The log of a station that runs, as docs/LOG.md has it: each call, and behind it the answer. keeping.c supplies
 * port_laid_out and port_noted (ports/port.h); here is where the log goes. */
#ifndef KEEPING_H
#define KEEPING_H

/* Begins a log in that file; it is whole behind log_end. What can't be written ends the program with a sentence. */
void log_begin(const char *name);
void log_end(void);

#endif
