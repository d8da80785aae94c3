/*
 * Two logs compared over the proved archive (include/elvomike/compare.h): as bare numbers, or as rows that
 * desk/compare puts into words. ./compare builds and runs it. Exit codes as cmp has them: 0 the logs
 * agree, 1 they differ, 2 trouble, in one sentence.
 *
 *     compare [--progress] --numbers ONE TWO       the numbers of the lines that differ, one a line
 *     compare [--progress] --rows MOST ONE TWO     rows, with MOST lines at most that both logs have
 *                                                  and MOST that only one has:
 *
 *         head LOG LINE                    each of a log's first lines, which have its layout
 *         differs NUMBER LINE LINE         a line that differs, of the first log and of the second
 *         rest LOG START BYTES LINES BEFORE    what runs on: where it starts, how long it is, and
 *                                          how many lines stand before it
 *         total COUNT                      how many lines differ
 *
 * A LINE is its size, a colon, its first bytes in hexadecimal, a colon and its last; '-' is a line that the log hasn't.
 *
 * Files are mapped and anything else is read whole, so that logs may be of any size. Nothing here
 * cuts a log into lines: whole lines that agree are passed over by compare_front, and the others
 * compared a piece of some lines at a time, cut by compare_after. That the numbers and the rest are
 * then those of the whole logs is proved (crates/compare/proofs/InPieces).
 */
#define _DEFAULT_SOURCE
#include "elvomike/compare.h"

#include <errno.h>
#include <fcntl.h>
#include <inttypes.h>
#include <stdbool.h>
#include <stdio.h>
#include <stdlib.h>
#include <string.h>
#include <sys/mman.h>
#include <sys/stat.h>
#include <unistd.h>

enum { PIECE_LEAST = 64, PIECE_MOST = 4096, HEAD_LINES = 64, SHOWN_BYTES = 200, LAST_BYTES = 24 };
enum { SAME = 0, DIFFER = 1, TROUBLE = 2 };
static const size_t STEP = (size_t)16 << 20, LONG = (size_t)64 << 20;

struct log {
    const uint8_t *bytes;
    size_t size, at; /* what stands before 'at' is compared */
};

static const uint8_t *here(const struct log *log) { return log->bytes + log->at; }
static size_t left(const struct log *log) { return log->size - log->at; }
static size_t least(size_t a, size_t b) { return a < b ? a : b; }

/* What is asked for, and how far it is. */
static bool numbers, progress;
static uint64_t most, count, lines_before, shown_of_both, shown_of_one;
static struct log logs[2];

static void trouble(const char *what, const char *name, const char *why)
{
    fprintf(stderr, "compare: %s'%s'%s.\n", what, name, why);
    exit(TROUBLE);
}

static void failed(const char *name)
{
    fprintf(stderr, "compare: the file '%s' can't be read: %s.\n", name, strerror(errno));
    exit(TROUBLE);
}

/* ---- the logs' bytes */

/* All of a file that can't be mapped. */
static void read_whole(int file, const char *name, struct log *log)
{
    size_t room = 1 << 16, size = 0;
    uint8_t *bytes = NULL;
    for (;;) {
        if (bytes == NULL || size == room) {
            if (bytes != NULL) room *= 2;
            bytes = realloc(bytes, room);
            if (bytes == NULL) failed(name);
        }
        ssize_t got = read(file, bytes + size, room - size);
        if (got < 0 && errno == EINTR) continue;
        if (got < 0) failed(name);
        if (got == 0) break;
        size += (size_t)got;
    }
    log->bytes = bytes;
    log->size = size;
}

static void take_log(const char *name, struct log *log)
{
    struct stat about;
    int file = open(name, O_RDONLY);
    if (file < 0 && errno == ENOENT) trouble("there is no file ", name, "");
    if (file < 0 || fstat(file, &about) != 0) failed(name);
    if (S_ISDIR(about.st_mode)) trouble("", name, " is a folder, not a file");
    log->at = 0;
    log->size = (size_t)about.st_size;
    log->bytes = MAP_FAILED;
    if (S_ISREG(about.st_mode) && log->size > 0)
        log->bytes = mmap(NULL, log->size, PROT_READ, MAP_PRIVATE, file, 0);
    if (log->bytes == MAP_FAILED) read_whole(file, name, log);
    close(file);
}

/* ---- rows */

static void print_bytes(const uint8_t *bytes, size_t size)
{
    for (size_t i = 0; i < size; i++) {
        putchar("0123456789ABCDEF"[bytes[i] >> 4]);
        putchar("0123456789ABCDEF"[bytes[i] & 15]);
    }
}

/* A line, its end cut off; none where there are no bytes. */
static void print_line(const uint8_t *bytes, size_t size)
{
    if (size == 0) {
        fputs(" -", stdout);
        return;
    }
    if (bytes[size - 1] == '\n') size--;
    printf(" %zu:", size);
    print_bytes(bytes, least(size, SHOWN_BYTES));
    putchar(':');
    print_bytes(bytes + size - least(size, LAST_BYTES), least(size, LAST_BYTES));
}

static void print_head(unsigned number, const struct log *log)
{
    size_t at = 0;
    for (unsigned i = 0; i < HEAD_LINES && at < log->size; i++) {
        size_t size = compare_after(log->bytes + at, log->size - at, 1);
        printf("head %u", number);
        print_line(log->bytes + at, size);
        putchar('\n');
        at += size;
    }
}

/* A line that differs; before the first of them the heads. */
static void print_differs(uint64_t number, const size_t at[2], const size_t size[2])
{
    if (shown_of_both + shown_of_one == 0)
        for (unsigned l = 0; l < 2; l++) print_head(l + 1, &logs[l]);
    printf("differs %" PRIu64, number);
    for (unsigned l = 0; l < 2; l++) print_line(logs[l].bytes + at[l], size[l]);
    putchar('\n');
}

/* The differing lines of a piece, each log's from where the one before it ended. */
static void print_lines(const size_t ends[2], const uint64_t *room, size_t found)
{
    size_t at[2] = {logs[0].at, logs[1].at}, size[2];
    uint64_t line = 0;
    for (size_t i = 0; i < found; i++) {
        for (unsigned l = 0; l < 2; l++) {
            const uint8_t *bytes = logs[l].bytes;
            at[l] += compare_after(bytes + at[l], ends[l] - at[l], (size_t)(room[i] - line - 1));
            size[l] = compare_after(bytes + at[l], ends[l] - at[l], 1);
        }
        uint64_t *shown = size[0] > 0 && size[1] > 0 ? &shown_of_both : &shown_of_one;
        if (*shown < most) {
            print_differs(lines_before + room[i], at, size);
            ++*shown;
        }
        for (unsigned l = 0; l < 2; l++) at[l] += size[l];
        line = room[i];
    }
}

/* What runs on, of what is left of the logs; the lines that both have stand before it. */
static void print_rest(void)
{
    size_t start;
    unsigned number =
        compare_rest(here(&logs[0]), left(&logs[0]), here(&logs[1]), left(&logs[1]), &start);
    const struct log *log = &logs[number - 1];
    uint64_t before = lines_before + compare_lines(here(log), start);
    size_t size = left(log) - start, lines = compare_lines(here(log) + start, size);
    printf("rest %u %zu %zu %zu %" PRIu64 "\n", number, log->at + start, size, lines, before);
}

/* ---- comparing */

static void say_progress(void)
{
    size_t done = logs[0].at + logs[1].at, all = logs[0].size + logs[1].size;
    if (!progress || all < LONG) return;
    fprintf(stderr, "\rcompare: %zu of %zu MB%s", done >> 20, all >> 20, done == all ? "\n" : "");
    fflush(stderr);
}

/* Passes over the whole lines that both go on with, a step at most; gives whether there were any. */
static bool pass_over(void)
{
    size_t same = compare_front(here(&logs[0]), least(left(&logs[0]), STEP), here(&logs[1]),
                                least(left(&logs[1]), STEP));
    for (unsigned l = 0; l < 2; l++) logs[l].at += same;
    return same > 0;
}

/* Compares the next lines of both, so many at most. The room has a word for each: it is enough. */
static void compare_piece(size_t lines)
{
    static uint64_t room[PIECE_MOST];
    static size_t counted; /* the lines of the first log before this place are */
    static bool rest_known;
    size_t ends[2], found;
    lines_before += compare_lines(logs[0].bytes + counted, logs[0].at - counted);
    for (unsigned l = 0; l < 2; l++)
        ends[l] = logs[l].at + compare_after(here(&logs[l]), left(&logs[l]), lines);
    compare_differences(here(&logs[0]), ends[0] - logs[0].at, here(&logs[1]), ends[1] - logs[1].at,
                        room, lines, &found);
    bool at_end = ends[0] == logs[0].size || ends[1] == logs[1].size;
    if (numbers)
        for (size_t i = 0; i < found; i++) printf("%" PRIu64 "\n", lines_before + room[i]);
    else if (shown_of_both < most || (at_end && shown_of_one < most))
        print_lines(ends, room, found);
    if (!numbers && !rest_known && at_end) {
        rest_known = true;
        print_rest();
    }
    count += found;
    lines_before += lines;
    counted = ends[0];
    for (unsigned l = 0; l < 2; l++) logs[l].at = ends[l];
}

/* Where the logs agree they are passed over; where they don't, the pieces grow. */
static void compare_logs(void)
{
    size_t lines = PIECE_LEAST;
    while (logs[0].at < logs[0].size || logs[1].at < logs[1].size) {
        if (pass_over()) {
            lines = PIECE_LEAST;
        } else {
            compare_piece(lines);
            lines = least(2 * lines, PIECE_MOST);
        }
        say_progress();
    }
}

int main(int words, char **word)
{
    int at = 1;
    if (at < words && strcmp(word[at], "--progress") == 0) progress = true, at++;
    if (at < words && strcmp(word[at], "--numbers") == 0) numbers = true, at++;
    else if (at + 1 < words && strcmp(word[at], "--rows") == 0)
        most = strtoull(word[at + 1], NULL, 10), at += 2;
    else at = words;
    if (words - at != 2) {
        fputs("compare: this program is run by ./compare, whose --help says how it is used.\n", stderr);
        return TROUBLE;
    }
    for (unsigned l = 0; l < 2; l++) take_log(word[at + (int)l], &logs[l]);
    compare_logs();
    if (!numbers) printf("total %" PRIu64 "\n", count);
    if (fflush(stdout) != 0 || ferror(stdout)) {
        fprintf(stderr, "compare: standard output can't be written: %s.\n", strerror(errno));
        return TROUBLE;
    }
    return count > 0 ? DIFFER : SAME;
}
