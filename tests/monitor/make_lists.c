/* Lists drawn at random, and tables laid out from them. Assumes nothing. */
#include <string.h>

#include "draw.h"
#include "make.h"
#include "second.h"

/* A legal name; few letters, so that names often begin alike. */
static void make_name(uint16_t *name)
{
    unsigned length = 1 + below(5);
    memset(name, 0, 3 * sizeof *name);
    for (unsigned i = 0; i < length; i++) {
        unsigned letter = chance(80) ? 'A' + below(3) : 1 + below(255);
        name[i / 2] |= (uint16_t)(letter << (i % 2 ? 0 : 8));
    }
}

static bool name_taken(const struct run *list, size_t entry)
{
    for (size_t other = 0; other < entry; other += 5)
        if (memcmp(list->word + other + 2, list->word + entry + 2, 3 * sizeof list->word[0]) == 0)
            return true;
    return false;
}

/* Appends so many entries with legal priorities and names and no buffers. */
static void add_entries(struct run *list, unsigned count)
{
    for (; count > 0; count--) {
        uint16_t *entry = list->word + list->words;
        entry[0] = (uint16_t)(chance(70) ? 1 + below(4) : 1 + below(255));
        entry[1] = 0;
        do make_name(entry + 2);
        while (name_taken(list, list->words));
        list->words += 5;
    }
}

/* Gives so many buffers to the list's processes, evenly or most to a few. */
static void give_buffers(struct run *list, unsigned buffers)
{
    unsigned processes = (unsigned)(list->words / 5);
    unsigned givers = chance(50) ? processes : 1 + below(processes);
    for (; buffers > 0; buffers--) list->word[5 * below(givers) + 1]++;
}

void make_list(struct run *list)
{
    list->words = 0;
    if (chance(10)) {
        add_entries(list, MONITOR_PROCESSES_MOST);
        give_buffers(list, MONITOR_BUFFERS_MOST - (chance(50) ? 0 : below(20)));
    } else if (chance(20)) {
        add_entries(list, 1 + below(MONITOR_PROCESSES_MOST));
        give_buffers(list, below(MONITOR_BUFFERS_MOST + 1));
    } else {
        add_entries(list, 1 + below(6));
        give_buffers(list, below(13));
    }
}

/* One word of an entry made wrong: its priority, or its name in each of the ways there are. */
static void spoil_entry(struct run *list, uint16_t *entry)
{
    static const uint16_t wrong_priority[] = {0, 256, 0x0100, 0x8001, 0xFFFF};
    switch (below(6)) {
    case 0: entry[0] = wrong_priority[below(5)]; break;
    case 1: entry[2] &= 0x00FF; break;
    case 2: memcpy(entry + 2, (const uint16_t[]){0x4142, 0x4344, 0x4546}, 6); break;
    case 3: memcpy(entry + 2, (const uint16_t[]){0x4100, 0x0043, 0}, 6); break;
    case 4: memcpy(entry + 2, (const uint16_t[]){0x4142, 0, 0x4300}, 6); break;
    default: memcpy(entry + 2, list->word + 5 * below((unsigned)(list->words / 5)) + 2, 6);
    }
}

void make_bad_list(struct run *list)
{
    make_list(list);
    uint16_t *entry = list->word + 5 * below((unsigned)(list->words / 5));
    switch (below(8)) {
    case 0: list->words = 0; break;
    case 1: list->words -= 1 + below(4); break;
    case 2:
        list->word[list->words] = some_word();
        list->words++;
        break;
    case 3: add_entries(list, 33 + below(3) - (unsigned)(list->words / 5)); break;
    case 4:
        give_buffers(list, 129 + below(3) - second_owned(list->word, list->words));
        break;
    case 5:
        entry[1] = 0x8000;
        list->word[1] = (uint16_t)(list->word[1] + 0x8000);
        break;
    case 6: list->word[below((unsigned)list->words)] = some_word(); break;
    default: spoil_entry(list, entry);
    }
}

/* A counter that can be laid out: few may enter, or one of the first and last there are. */
static uint16_t some_counter(void)
{
    static const uint16_t edge[] = {0, 1, 32766, 32767};
    return chance(60) ? edge[below(4)] : (uint16_t)(chance(50) ? below(4) : below(32768));
}

static void add_counters(struct run *counters, unsigned count)
{
    for (; count > 0; count--) counters->word[counters->words++] = some_counter();
}

void make_counters(struct run *counters)
{
    counters->words = 0;
    if (chance(30)) return;
    add_counters(counters, chance(20) ? MONITOR_SEMAPHORES_MOST : 1 + below(chance(70) ? 3 : MONITOR_SEMAPHORES_MOST));
}

void make_bad_counters(struct run *counters)
{
    static const uint16_t wrong[] = {0x8000, 0x8001, 0xFFFF, 0xFFFE};
    make_counters(counters);
    if (counters->words == 0 || chance(50))
        add_counters(counters, MONITOR_SEMAPHORES_MOST + 1 + below(3) - (unsigned)counters->words);
    else
        counters->word[below((unsigned)counters->words)] = chance(80) ? wrong[below(4)] : some_word();
}

void make_laid_out(struct run *table, const struct run *list, const struct run *counters)
{
    unsigned processes = (unsigned)(list->words / 5);
    unsigned buffers = second_owned(list->word, list->words - list->words % 5);
    unsigned semaphores = (unsigned)counters->words;
    if (processes > 35 || buffers > MONITOR_BUFFERS_MOST + 1) processes = buffers = 0;
    for (unsigned i = 0; i < TABLE_MOST; i++) table->word[i] = some_word();
    second_lay(list->word, processes, buffers, below(2), counters->word, semaphores, table->word);
    table->words = MONITOR_TABLE_WORDS(processes, buffers, semaphores) + (chance(70) ? 0 : below(20));
}

void make_table(struct run *table)
{
    static struct run list, counters;
    make_list(&list);
    make_counters(&counters);
    make_laid_out(table, &list, &counters);
}
