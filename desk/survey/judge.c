/*
 * Logs that carry a station's answers, each held to the proved monitor up to its first stray; desk/survey builds and runs it.
 *
 *     judge <REQUESTS >FINDINGS
 *
 * A request is three words, each ended by a zero byte: the edition, the semaphores' counters (1,0,5 or nothing) and the log's
 * path. Its finding is one line, behind a line 'at BYTES' every so often:
 *
 *     done HOW LINES BYTES SUM CALLS TICKS TALKS TORN GOOD ANSWERS [LINE PLACE LAID CALL GIVEN TABLE CLEANED ROUSED]
 *
 * HOW is 'right', 'strayed', 'refused' (the layout) or 'unread' (with the number of the error for LINES). CALLS, TICKS and TALKS
 * (conversations begun) count up to the stray, its own call with them. TORN is 1 where the log ends within what answers its
 * last call, which then isn't counted; GOOD how many lines are calls or layout lines, ANSWERS how many are marked. Of a stray
 * there is the line of the answer, that of the call, whether the station was laid out, and in hexadecimal the call's line, the
 * answers given, the table's words before the call, for each buffer which process's clean has answered it, and for each process
 * whether a clean has woken it and it hasn't run since.
 *
 * Memory is the same for every log: a line is kept as far as it can be a call or an answer.
 */
#include "held.h"

#include <errno.h>
#include <fcntl.h>
#include <inttypes.h>
#include <stdio.h>
#include <stdlib.h>
#include <string.h>
#include <unistd.h>

enum { BLOCK_BYTES = 65536, PATH_BYTES = 65536, AT_STEP = 1 << 24, TROUBLE = 2 };

static struct held held;

/* The line that is being read, as far as it is kept, and how long it is; the log's bytes and their sum. */
static unsigned char line[KEPT_BYTES];
static size_t length;
static uintmax_t bytes;
static uint64_t sum;

static void trouble(const char *why)
{
    fprintf(stderr, "survey: the program that judges can't go on: %s.\n", why);
    exit(TROUBLE);
}

static void begin(const char *edition, const char *counters)
{
    held_begin(&held);
    length = bytes = 0;
    sum = 14695981039346656037u;
    if (!take_edition(&held.station.outfit, edition) || (*counters && !take_counters(&held.station.outfit, counters)))
        trouble("an outfit is none");
}

static void end_line(bool has_end)
{
    held_line(&held, line, length, has_end);
    length = 0;
}

static void take_block(const unsigned char *block, size_t size)
{
    for (size_t i = 0; i < size;) {
        const unsigned char *end = memchr(block + i, '\n', size - i);
        const size_t piece = end ? (size_t)(end - (block + i)) : size - i;
        if (length < KEPT_BYTES) memcpy(line + length, block + i, piece < KEPT_BYTES - length ? piece : KEPT_BYTES - length);
        length += piece;
        i += piece + 1;
        if (end) end_line(true);
    }
}

/* A sum of the bytes, by which copies of a log are known: FNV's, eight bytes at a time. */
static void add_sum(const unsigned char *block, size_t size)
{
    for (size_t i = 0; i < size; i += 8) {
        uint64_t word = 0;
        memcpy(&word, block + i, size - i < 8 ? size - i : 8);
        sum = (sum ^ word) * 1099511628211u;
        sum ^= sum >> 29;
    }
}

static void put_hex(const void *start, size_t size)
{
    const unsigned char *byte = start;
    putchar(' ');
    if (size == 0) putchar('-');
    for (size_t i = 0; i < size; i++) printf("%02x", byte[i]);
}

static void put_words(const uint16_t *word, size_t count)
{
    putchar(' ');
    if (count == 0) putchar('-');
    for (size_t i = 0; i < count; i++) printf("%04x", word[i]);
}

static void report(void)
{
    const char *how = held.strayed ? "strayed" : held.station.phase == ENDED ? "refused" : "right";
    printf("done %s %ju %ju %ju %ju %ju %ju %d %ju %ju", how, held.lines, bytes, (uintmax_t)sum, held.calls, held.ticks, held.talks, held.torn,
           held.good, held.answers);
    if (held.strayed) {
        printf(" %ju %ju %d", held.stray_line, held.head_place, held.has_laid);
        put_hex(held.head, held.head_length);
        put_hex(held.given, held.given_size);
        put_words(held.before, held_table_words(&held));
        put_words(held.cleaned, held.has_laid ? held.before[MONITOR_BUFFERS_PLACE] + 1u : 0);
        put_words(held.roused, held.has_laid ? held.before[MONITOR_PROCESSES_PLACE] + 1u : 0);
    }
    putchar('\n');
}

/* Reads a log to its end; gives 0, or the number of the error. */
static int read_log(int file)
{
    static unsigned char block[BLOCK_BYTES];
    for (;;) {
        const ssize_t got = read(file, block, sizeof block);
        if (got < 0 && errno == EINTR) continue;
        if (got < 0) return errno;
        if (got == 0) return 0;
        add_sum(block, (size_t)got);
        take_block(block, (size_t)got);
        if (bytes / AT_STEP != (bytes + (uintmax_t)got) / AT_STEP) {
            printf("at %ju\n", bytes);
            fflush(stdout);
        }
        bytes += (uintmax_t)got;
    }
}

static void judge(const char *edition, const char *counters, const char *path)
{
    begin(edition, counters);
    const int file = open(path, O_RDONLY);
    const int error = file < 0 ? errno : read_log(file);
    if (file >= 0) close(file);
    if (error != 0) {
        printf("done unread %d 0 0 0 0 0 0 0 0\n", error);
        return;
    }
    if (length > 0) end_line(false);
    held_end(&held);
    report();
}

static bool take_word(char *word, size_t most)
{
    int byte;
    size_t size = 0;
    while ((byte = getchar()) > 0) {
        if (size + 1 == most) trouble("a request is too long");
        word[size++] = (char)byte;
    }
    word[size] = 0;
    return byte == 0;
}

int main(void)
{
    static char edition[16], counters[256], path[PATH_BYTES];
    while (take_word(edition, sizeof edition) && take_word(counters, sizeof counters) && take_word(path, sizeof path)) {
        judge(edition, counters, path);
        if (fflush(stdout) != 0) trouble(strerror(errno));
    }
    return 0;
}
