/*
 * vectors FILE: runs outside test vectors through monitor_screen and says how many agreed. FILE has a case
 * a line, all numbers decimal, a record being [number, state, queue, sent]:
 *
 *     {"table": [..], "records": [[..], ..], "number": 0, "records_after": [[..], ..]}
 *
 * Exits 1 if any case disagreed, 2 if one can't be read or there is none.
 */
#include <stdbool.h>
#include <string.h>

#include "../monitor/cases.h"
#include "../monitor/lent.h"
#include "elvomike/screen.h"

enum { TABLE_MOST = 2048, RECORD_WORDS = 4, LIST_MOST = 64 * RECORD_WORDS };

/* Numbers as words. */
static void as_words(const long *list, size_t count, uint16_t *into)
{
    for (size_t i = 0; i < count; i++) into[i] = (uint16_t)list[i];
}

/* Whether a case comes out as it has it. */
static bool agrees(const char *line, struct lent *tables, struct lent *lists)
{
    static long numbers[TABLE_MOST];
    static uint16_t table[TABLE_MOST], list[LIST_MOST], expected[LIST_MOST];
    size_t table_words = read_list(line, "table", numbers, TABLE_MOST);
    as_words(numbers, table_words, table);
    size_t list_words = read_list(line, "records", numbers, LIST_MOST);
    as_words(numbers, list_words, list);
    read_exactly(line, "records_after", numbers, list_words);
    as_words(numbers, list_words, expected);
    uint16_t *t = lend(tables, table, table_words), *l = lend(lists, list, list_words);
    uint16_t number = monitor_screen(t, table_words, (struct monitor_summary *)(void *)l, list_words / RECORD_WORDS);
    return number == read_number(line, "number") && memcmp(l, expected, list_words * sizeof *l) == 0 &&
           memcmp(t, table, table_words * sizeof *t) == 0 && margin_kept(tables) && margin_kept(lists);
}

int main(int arguments, char **argument)
{
    struct lent tables = lent_area(TABLE_MOST), lists = lent_area(LIST_MOST);
    unsigned disagreed = 0;
    FILE *file = open_cases(arguments, argument);
    for (const char *line; (line = next_case(file)) != NULL;) {
        if (agrees(line, &tables, &lists)) continue;
        disagreed++;
        printf("DIFFERENCE in line %u\n", case_number());
    }
    return cases_told(disagreed, "screens");
}
