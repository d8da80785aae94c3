/*
 * Who is stuck behind whom, on a full table (32 processes, 128 buffers): see bench/run. Assumes a
 * monitor that does what docs/MONITOR.md, 17.1 says; a report that isn't the scene's ends the program.
 */
#include <stdio.h>
#include <stdlib.h>

#include "scenes.h"

/* The waits: all in one ring; each behind the next, and the last runs; in pairs; two for each other
 * and all others for one of them; nobody waits. */
static unsigned to_next(unsigned p) { return p % 32 + 1; }
static unsigned to_next_but_last(unsigned p) { return p == 32 ? 0 : p + 1; }
static unsigned to_partner(unsigned p) { return p % 2 == 0 ? p - 1 : p + 1; }
static unsigned to_last_pair(unsigned p) { return p == 31 ? 32 : 31; }
static unsigned to_nobody(unsigned p) { return p * 0; }

static void one_ring(struct scene *scene) { waiting_for(scene, to_next); }
static void one_line(struct scene *scene) { waiting_for(scene, to_next_but_last); }
static void pairs(struct scene *scene) { waiting_for(scene, to_partner); }
static void behind_a_pair(struct scene *scene) { waiting_for(scene, to_last_pair); }
static void no_waits(struct scene *scene) { waiting_for(scene, to_nobody); }

static void expect(unsigned number, unsigned found, unsigned wanted)
{
    if (number == MONITOR_DONE && found == wanted) return;
    fprintf(stderr, "number %u, %u found where %u are\n", number, found, wanted);
    exit(2);
}

static void stuck_of_32(struct scene *scene)
{
    struct monitor_stuck_report report;
    monitor_stuck(scene->table, scene->words, scene->room, MONITOR_STUCK_WORDS_MOST, 1, &report);
    expect(report.number, report.count, 32);
}

static void rings(struct scene *scene, unsigned wanted)
{
    struct monitor_rings_report report;
    monitor_rings(scene->table, scene->words, scene->room, MONITOR_RINGS_WORDS_MOST, &report);
    expect(report.number, report.rings, wanted);
}

static void no_rings(struct scene *scene) { rings(scene, 0); }
static void rings_1(struct scene *scene) { rings(scene, 1); }
static void rings_16(struct scene *scene) { rings(scene, 16); }

static const struct bench_case cases[] = {
    {"stuck, a ring of 32", one_ring, stuck_of_32},
    {"stuck, behind 31 others", one_line, stuck_of_32},
    {"rings, nobody waits", no_waits, no_rings},
    {"rings, a ring of 32", one_ring, rings_1},
    {"rings, 16 rings of two", pairs, rings_16},
    {"rings, a line of 32 and no ring", one_line, no_rings},
    {"rings, 30 behind a ring of two", behind_a_pair, rings_1},
};

int main(int arguments, char **argument)
{
    return run_cases(cases, sizeof cases / sizeof cases[0], arguments, argument);
}
