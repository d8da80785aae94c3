/*
 * The log of an example station, where its command line has --log FILE: the layout, each call, and behind it the answer, by
 * include/elvomike/log.h. ./explain tells it, and ./compare --to-monitor holds the station to it. Assumes a hosted C library; each
 * example includes it once.
 */
#ifndef LOGFILE_H
#define LOGFILE_H

#include "elvomike/log.h"

#include <errno.h>
#include <stdio.h>
#include <stdlib.h>
#include <string.h>

static FILE *log_file; /* none where there is no --log */
static const char *log_name;

static void log_trouble(void)
{
    fprintf(stderr, "The log '%s' can't be written: %s.\n", log_name, strerror(errno));
    exit(2);
}

/* Reads the command line, and begins the log that it names. */
static void log_begin(int words, char **word)
{
    if (words == 1) return;
    if (words != 3 || strcmp(word[1], "--log") != 0) {
        fprintf(stderr, "usage: %s [--log FILE]\n", word[0]);
        exit(2);
    }
    log_name = word[2];
    log_file = fopen(log_name, "wb");
    if (log_file == NULL) log_trouble();
}

static void log_line(const char *line, size_t chars)
{
    if (fwrite(line, 1, chars, log_file) != chars) log_trouble();
}

/* A line for each process of the list that was laid out. */
static void log_laid_out(const uint16_t *list, size_t words)
{
    char line[MONITOR_LOG_CHARS_MOST];
    if (log_file == NULL) return;
    for (size_t i = 0; i < words; i += MONITOR_ENTRY_WORDS)
        log_line(line, monitor_log_layout(list + i, line, sizeof line));
}

/* The call of a record that is done or refused, its answer, and the rows of a listing, which are in the room. */
static void log_called(const struct monitor_registers *r, const uint16_t *room)
{
    char line[MONITOR_LOG_CHARS_MOST];
    if (log_file == NULL) return;
    log_line(line, monitor_log_call(r, line, sizeof line));
    log_line(line, monitor_log_answer(r, line, sizeof line));
    for (size_t i = 0; i < monitor_log_rows(r); i++)
        log_line(line, monitor_log_row(room + MONITOR_LISTING_WORDS * i, line, sizeof line));
}

static void log_end(void)
{
    if (log_file != NULL && fclose(log_file) != 0) log_trouble();
}

#endif
