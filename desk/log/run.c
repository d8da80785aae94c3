/*
 * A log run by the proved monitor at a station of either edition, with semaphores or without; serving.c serves each line. The
 * desk's commands build and run it.
 *
 *     run [--edition N] [--semaphores N,N,..] <LOG >ANSWERS
 *
 * Without options it writes what ./replay writes, byte for byte. It keeps no line longer than a call. Exit codes: 0 the log
 * was run, 2 it couldn't be, in one sentence.
 */
#include "serving.h"

#include <errno.h>
#include <stdio.h>
#include <stdlib.h>
#include <string.h>
#include <unistd.h>

enum { BLOCK_BYTES = 65536, TROUBLE = 2 };

static struct serving station;

/* The line that is being read: its bytes as far as they can be a call's, and how many it has, at most one more. */
static unsigned char line[CALL_DIGITS];
static size_t length;

/* What was written and not handed on yet. */
static char out[BLOCK_BYTES + SERVED_MOST];
static size_t gathered;

static void trouble(const char *why)
{
    fprintf(stderr, "run: %s.\n", why);
    exit(TROUBLE);
}

static void hand_on(void)
{
    for (size_t done = 0; done < gathered;) {
        ssize_t written = write(STDOUT_FILENO, out + done, gathered - done);
        if (written < 0 && errno != EINTR) trouble(strerror(errno));
        if (written > 0) done += (size_t)written;
    }
    gathered = 0;
}

/* A line is at its end. */
static void take_line(void)
{
    struct monitor_registers r;
    gathered += serve_line(&station, line, length, &r, out + gathered);
    length = 0;
    if (gathered > BLOCK_BYTES) hand_on();
}

static void take_byte(unsigned char byte)
{
    if (byte == '\n') {
        take_line();
    } else if (length <= CALL_DIGITS) {
        if (length < CALL_DIGITS) line[length] = byte;
        length++;
    }
}

static void run(void)
{
    static unsigned char block[BLOCK_BYTES];
    ssize_t got;
    while (station.phase != ENDED && (got = read(STDIN_FILENO, block, sizeof block)) != 0) {
        if (got < 0 && errno != EINTR) trouble(strerror(errno));
        for (ssize_t i = 0; i < got && station.phase != ENDED; i++) take_byte(block[i]);
        hand_on();
    }
    if (station.phase != ENDED && length > 0) take_line(); /* the last line may lack its end */
    gathered += serve_end(&station, out + gathered);
    hand_on();
}

int main(int words, char **word)
{
    for (int i = 1; i < words; i += 2) {
        bool taken = false;
        if (i + 1 < words && strcmp(word[i], "--edition") == 0) taken = take_edition(&station.outfit, word[i + 1]);
        else if (i + 1 < words && strcmp(word[i], "--semaphores") == 0) taken = take_counters(&station.outfit, word[i + 1]);
        if (!taken) trouble("this program is run by ./explain and ./compare, whose --help says how they are used");
    }
    run();
    return 0;
}
