/*
 * soak FOLDER FIRST ROUNDS CALLS [forget]: rounds of so many calls at a station that is stopped, cleaned and interrupted at
 * random, numbered from FIRST, the round's number being its seed. Each begins with a table laid out anew and ends with
 * a listing of every process, a clean of each, and their listings again. The log is read by the nine lines of docs/MONITOR.md, 14: it must
 * agree with each listing, at the end with the table's own words, and after the cleans every buffer must be free. Every fourth
 * round is of the second edition; the log and the answers of the others go to FOLDER/ROUND.log and FOLDER/ROUND.answers, for
 * the replay, which has only the first. With 'forget' a send is left out of each log: then the reading must not agree.
 * Writes how many calls of each number were accepted, and how many the quick entry did. Exits with 0 if all agrees, else 1.
 */
#include <stdio.h>
#include <stdlib.h>

#include "draw.h"
#include "reading.h"
#include "station.h"

static void list_all(struct station *s)
{
    for (unsigned p = 1; p <= PROCESSES; p++) station_call(s, MONITOR_LIST, p, 0);
}

/* Whether the table's words say of each buffer what the log does. */
static bool agrees(const struct station *s, const struct reading *g)
{
    for (unsigned b = 1; b <= s->buffers; b++) {
        const struct read_buffer *read = &g->buffer[b];
        if (s->table[MONITOR_STANDING_PLACE(PROCESSES, b)] == read->standing &&
            s->table[MONITOR_OWNER_PLACE(PROCESSES, b)] == read->owner &&
            s->table[MONITOR_RECEIVER_PLACE(PROCESSES, b)] == read->receiver &&
            s->table[MONITOR_AGE_PLACE(PROCESSES, b)] == read->age)
            continue;
        fprintf(stderr, "soak: the table has buffer %u otherwise than the log.\n", b);
        return false;
    }
    return g->buffers == s->buffers;
}

static bool all_free(const struct reading *g)
{
    for (unsigned b = 1; b <= g->buffers; b++) {
        if (g->buffer[b].standing == MONITOR_FREE) continue;
        fprintf(stderr, "soak: buffer %u is lost: everyone was cleaned, and it isn't free.\n", b);
        return false;
    }
    return true;
}

static bool round_is_well(struct station *s, unsigned calls)
{
    static struct reading reading;
    for (unsigned i = 0; i < calls; i++) station_step(s);
    list_all(s);
    if (!read_log(&s->log, &reading) || !agrees(s, &reading)) return false;
    for (unsigned p = 1; p <= PROCESSES; p++) station_call(s, MONITOR_CLEAN, p, 0);
    list_all(s);
    return read_log(&s->log, &reading) && agrees(s, &reading) && all_free(&reading);
}

static void keep(const char *folder, unsigned round, const char *kind, const struct text *text)
{
    char name[4096];
    snprintf(name, sizeof name, "%s/%u.%s", folder, round, kind);
    FILE *file = fopen(name, "w");
    if (file == NULL || fwrite(text->bytes, 1, text->size, file) != text->size || fclose(file) != 0) {
        fprintf(stderr, "soak: '%s' can't be written.\n", name);
        exit(2);
    }
}

int main(int count, char **word)
{
    static struct station s;
    if (count < 5) {
        fprintf(stderr, "soak: FOLDER, FIRST, ROUNDS and CALLS are wanted.\n");
        return 2;
    }
    const unsigned first = (unsigned)strtoul(word[2], NULL, 10), rounds = (unsigned)strtoul(word[3], NULL, 10);
    for (unsigned round = first; round < first + rounds; round++) {
        const bool second = round % 4 == 0;
        draw_from(round);
        s.forgets = count > 5 ? 10 : 0;
        station_begin(&s, second ? MONITOR_EDITION_SECOND : MONITOR_EDITION_FIRST);
        if (!round_is_well(&s, (unsigned)strtoul(word[4], NULL, 10))) {
            fprintf(stderr, "soak: that was in round %u.\n", round);
            return 1;
        }
        if (second) continue;
        keep(word[1], round, "log", &s.log.in);
        keep(word[1], round, "answers", &s.log.out);
    }
    for (unsigned call = MONITOR_SEND; call <= MONITOR_LIST; call++) printf("%lu ", s.made[call]);
    printf("%lu\n", s.quickly);
    return 0;
}
