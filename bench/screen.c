/* The operator's screen: of a small and a full table, and of a list that is too short. Assumes the scenes. */
#include <stdio.h>
#include <stdlib.h>

#include "scenes.h"
#include "elvomike/screen.h"

static struct monitor_summary list[MONITOR_PROCESSES_MOST];

/* A screen into so many records, which gives that number or ends the program. */
static void screen(struct scene *scene, size_t records, unsigned expected)
{
    if (monitor_screen(scene->table, scene->words, list, records) == expected) return;
    fputs("a screen gave another number\n", stderr);
    exit(2);
}

static void filled(struct scene *scene) { screen(scene, MONITOR_PROCESSES_MOST, MONITOR_DONE); }
static void refused(struct scene *scene) { screen(scene, MONITOR_PROCESSES_MOST - 1, MONITOR_ROOM_TOO_SHORT); }

static const struct bench_case cases[] = {
    {"screen, 4 processes, 8 buffers", small, filled},
    {"screen, 32 processes, 128 buffers", full, filled},
    {"screen, 32 processes, 31 records: refused", full, refused},
};

int main(int arguments, char **argument)
{
    return run_cases(cases, sizeof cases / sizeof *cases, arguments, argument);
}
