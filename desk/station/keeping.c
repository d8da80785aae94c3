/* The log of a station that runs. Assumes a hosted C library; where no log was begun nothing is written. */
#include "keeping.h"

#include <errno.h>
#include <stdio.h>
#include <string.h>

#include "../tape/input.h"
#include "elvomike/log.h"
#include "port.h"

static FILE *log_file;
static const char *log_name;

static void write_line(const char *line, size_t chars)
{
    if (fwrite(line, 1, chars, log_file) != chars) fail("the log '%s' can't be written: %s.", log_name, strerror(errno));
}

void log_begin(const char *name)
{
    log_name = name;
    log_file = fopen(name, "wb");
    if (log_file == NULL) fail("the log '%s' can't be written: %s.", name, strerror(errno));
}

void port_laid_out(const uint16_t *list, size_t words)
{
    char line[MONITOR_LOG_CHARS_MOST];
    if (log_file == NULL) return;
    for (size_t i = 0; i < words; i += MONITOR_ENTRY_WORDS) write_line(line, monitor_log_layout(list + i, line, sizeof line));
}

void port_noted(const struct monitor_registers *done, const uint16_t *room)
{
    char line[MONITOR_LOG_CHARS_MOST];
    if (log_file == NULL) return;
    write_line(line, monitor_log_call(done, line, sizeof line));
    write_line(line, monitor_log_answer(done, line, sizeof line));
    for (size_t i = 0; i < monitor_log_rows(done); i++)
        write_line(line, monitor_log_row(room + MONITOR_LISTING_WORDS * i, line, sizeof line));
}

void log_end(void)
{
    if (log_file != NULL && fclose(log_file) != 0) fail("the log '%s' can't be written: %s.", log_name, strerror(errno));
    log_file = NULL;
}
