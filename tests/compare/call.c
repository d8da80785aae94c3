/*
 * Calls each function of include/elvomike/compare.h as its input says, a row a line, and writes what came back.
 * The logs and the room that it lends end right before a page that nobody may touch, so that a read or
 * write past an end stops the program. tests/compare/archive.py writes the rows and reads the answers.
 *
 *     ONE TWO WORDS LINES ROOM..      the logs in hexadecimal ('-': no bytes), the room's size and
 *                                     words, and a number of lines for compare_after
 *     NUMBER COUNT LOG START FRONT LINES LINES AFTER AFTER ROOM..
 */
#define _DEFAULT_SOURCE
#include "elvomike/compare.h"

#include <inttypes.h>
#include <stdio.h>
#include <stdlib.h>
#include <string.h>
#include <sys/mman.h>
#include <unistd.h>

enum { MOST_BYTES = 1 << 20, MOST_WORDS = 1 << 16 };

static char one_digits[2 * MOST_BYTES + 1], two_digits[2 * MOST_BYTES + 1];

static void *no_memory(void)
{
    perror("no memory to lend from");
    exit(2);
}

/* The first byte of a page that nobody may touch, with so many bytes before it. */
static uint8_t *fence(size_t bytes)
{
    size_t page = (size_t)sysconf(_SC_PAGESIZE), pages = (bytes + page - 1) / page;
    uint8_t *start = mmap(NULL, (pages + 1) * page, PROT_READ | PROT_WRITE, MAP_PRIVATE | MAP_ANONYMOUS, -1, 0);
    if (start == MAP_FAILED || mprotect(start + pages * page, page, PROT_NONE) != 0) return no_memory();
    return start + pages * page;
}

/* The bytes that digits spell, up to the fence. */
static const uint8_t *lend(uint8_t *fence, const char *digits, size_t *size)
{
    *size = *digits == '-' ? 0 : strlen(digits) / 2;
    for (size_t i = 0; i < *size; i++) {
        char pair[3] = {digits[2 * i], digits[2 * i + 1], 0};
        fence[(ptrdiff_t)i - (ptrdiff_t)*size] = (uint8_t)strtoul(pair, NULL, 16);
    }
    return fence - *size;
}

int main(void)
{
    uint8_t *one_fence = fence(MOST_BYTES), *two_fence = fence(MOST_BYTES);
    uint64_t *room_fence = (uint64_t *)(void *)fence(8 * MOST_WORDS);
    size_t words, lines, one_size, two_size, count, start;
    while (scanf("%2097152s %2097152s %zu %zu", one_digits, two_digits, &words, &lines) == 4) {
        const uint8_t *one = lend(one_fence, one_digits, &one_size), *two = lend(two_fence, two_digits, &two_size);
        uint64_t *room = room_fence - words;
        for (size_t i = 0; i < words; i++)
            if (scanf("%" SCNu64, &room[i]) != 1) return 2;
        unsigned number = compare_differences(one, one_size, two, two_size, room, words, &count);
        unsigned log = compare_rest(one, one_size, two, two_size, &start);
        printf("%u %zu %u %zu %zu", number, count, log, start, compare_front(one, one_size, two, two_size));
        printf(" %zu %zu", compare_lines(one, one_size), compare_lines(two, two_size));
        printf(" %zu %zu", compare_after(one, one_size, lines), compare_after(two, two_size, lines));
        for (size_t i = 0; i < words; i++) printf(" %" PRIu64, room[i]);
        putchar('\n');
    }
    return 0;
}
