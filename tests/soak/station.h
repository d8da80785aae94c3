/* A station of five processes whose programs are stopped, cleaned and started again at any moment. */
#ifndef SOAK_STATION_H
#define SOAK_STATION_H

#include "log.h"

enum { PROCESSES = 5 };

struct station {
    unsigned buffers;
    uint16_t table[MONITOR_TABLE_WORDS_MOST], room[MONITOR_LISTING_WORDS * MONITOR_BUFFERS_MOST];
    struct monitor_registers r; /* of the last call */
    unsigned current;
    struct log log;
    unsigned long made[MONITOR_LIST + 1]; /* accepted calls, by number, of all rounds */
    unsigned long quickly;                /* those of them that the quick entry did */
    unsigned forgets; /* the log leaves out the send that this counts down to, so that its reading must fail; 0: none */
};

/* Lays out a station, drawn anew, in that edition. */
void station_begin(struct station *s, unsigned edition);

/* One call, of the current process or of the world around it. */
void station_step(struct station *s);

/* A call of this number and parts, kept in the log; the quick entry makes half of them. */
void station_call(struct station *s, unsigned number, unsigned a, unsigned b);

#endif
