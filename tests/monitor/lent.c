/* Runs of words that end right before a page nobody may touch. Assumes a system with mmap. */
#define _DEFAULT_SOURCE
#include "lent.h"

#include <stdio.h>
#include <stdlib.h>
#include <string.h>
#include <sys/mman.h>
#include <unistd.h>

enum { MARGIN_WORDS = 16, MARGIN_WORD = 0xA55A };

struct lent lent_area(size_t most)
{
    size_t page = (size_t)sysconf(_SC_PAGESIZE);
    size_t pages = ((most + MARGIN_WORDS) * sizeof(uint16_t) + page - 1) / page;
    char *start = mmap(NULL, (pages + 1) * page, PROT_READ | PROT_WRITE,
                       MAP_PRIVATE | MAP_ANONYMOUS, -1, 0);
    if (start == MAP_FAILED || mprotect(start + pages * page, page, PROT_NONE) != 0) {
        perror("no memory to lend from");
        exit(2);
    }
    struct lent area = {.fence = (uint16_t *)(void *)(start + pages * page)};
    area.words = area.fence;
    return area;
}

uint16_t *lend(struct lent *area, const uint16_t *contents, size_t words)
{
    area->words = area->fence - words;
    memcpy(area->words, contents, words * sizeof *contents);
    for (unsigned i = 1; i <= MARGIN_WORDS; i++) area->words[-(ptrdiff_t)i] = MARGIN_WORD;
    return area->words;
}

bool margin_kept(const struct lent *area)
{
    for (unsigned i = 1; i <= MARGIN_WORDS; i++)
        if (area->words[-(ptrdiff_t)i] != MARGIN_WORD) return false;
    return true;
}
