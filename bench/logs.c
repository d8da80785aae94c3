/*
 * One call of a function of include/elvomike/compare.h on two mapped logs, or none: what bench/compare counts.
 *
 *     logs nothing|differences|rest|front|lines|after ONE TWO
 */
#define _DEFAULT_SOURCE
#include "elvomike/compare.h"

#include <fcntl.h>
#include <stdio.h>
#include <stdlib.h>
#include <string.h>
#include <sys/mman.h>
#include <sys/stat.h>

static const uint8_t *map(const char *name, size_t *size)
{
    struct stat about;
    int file = open(name, O_RDONLY);
    if (file < 0 || fstat(file, &about) != 0) exit(2);
    *size = (size_t)about.st_size;
    const uint8_t *bytes = mmap(NULL, *size, PROT_READ, MAP_PRIVATE, file, 0);
    if (bytes == MAP_FAILED) exit(2);
    return bytes;
}

int main(int words, char **word)
{
    if (words != 4) return 2;
    size_t n, m, place = 0;
    const uint8_t *one = map(word[2], &n), *two = map(word[3], &m);
    uint64_t *room = malloc(n + m); /* more words than lines of 26 digits */
    if (room == NULL) return 2;
    const char *call = word[1];
    if (strcmp(call, "differences") == 0 && compare_differences(one, n, two, m, room, (n + m) / 8, &place) != 0) return 1;
    if (strcmp(call, "rest") == 0) compare_rest(one, n, two, m, &place);
    if (strcmp(call, "front") == 0) place = compare_front(one, n, two, m);
    if (strcmp(call, "lines") == 0) place = compare_lines(one, n);
    if (strcmp(call, "after") == 0) place = compare_after(one, n, n);
    printf("%zu\n", place);
    return 0;
}
