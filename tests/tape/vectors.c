/*
 * vectors FILE: runs outside test vectors through tape_read and says how many agreed. FILE has a case a
 * line, all numbers decimal:
 *
 *     {"mode": 9, "tape": [..], "table": [..], "base": 0, "area": [..],
 *      "answer": [number, stored, read, base, status], "area_after": [..]}
 *
 * Exits 1 if any case disagreed, 2 if one can't be read or there is none.
 */
#include "../monitor/cases.h"
#include "trial.h"

static void read_case(const char *line, struct trial *trial, struct outcome *expected)
{
    static long list[TABLE_MOST];
    long answer[5];
    trial->mode = (uint16_t)read_number(line, "mode");
    trial->base = (int32_t)read_number(line, "base");
    trial->tape_bytes = read_list(line, "tape", list, TAPE_MOST);
    for (size_t i = 0; i < trial->tape_bytes; i++) trial->tape[i] = (uint8_t)list[i];
    trial->table_words = read_list(line, "table", list, TABLE_MOST);
    for (size_t i = 0; i < trial->table_words; i++) trial->table[i] = (uint16_t)list[i];
    trial->area_bytes = read_list(line, "area", list, AREA_MOST);
    for (size_t i = 0; i < trial->area_bytes; i++) trial->area[i] = (uint8_t)list[i];
    read_exactly(line, "answer", answer, 5);
    expected->taken = (struct tape_taken){(uint16_t)answer[0], (size_t)answer[1], (size_t)answer[2],
                                          (int32_t)answer[3], (uint16_t)answer[4]};
    read_exactly(line, "area_after", list, trial->area_bytes);
    for (size_t i = 0; i < trial->area_bytes; i++) expected->area[i] = (uint8_t)list[i];
    expected->outside = false;
}

int main(int arguments, char **argument)
{
    static struct trial trial;
    struct outcome expected, outcome;
    unsigned disagreed = 0;
    FILE *file = open_cases(arguments, argument);
    for (const char *line; (line = next_case(file)) != NULL;) {
        read_case(line, &trial, &expected);
        try_by(tape_read, &trial, &outcome);
        if (same_outcome(&trial, &expected, &outcome)) continue;
        disagreed++;
        printf("DIFFERENCE in line %u\nas the vector has it: ", case_number());
        write_outcome(stdout, &trial, &expected);
        printf("as it came out:       ");
        write_outcome(stdout, &trial, &outcome);
    }
    return cases_told(disagreed, "tapes");
}
