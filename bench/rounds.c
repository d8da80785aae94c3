/*
 * Whole rounds and the calls a station makes most, on a small table (4 processes, 8 buffers) and a
 * full one (32, 128): see bench/run. Assumes the scenes' roles.
 */
#include "scenes.h"

static void tick(struct scene *scene) { call(scene, MONITOR_TICK, 0, 0); }

static void clean(struct scene *scene) { call(scene, MONITOR_CLEAN, CLIENT, 0); }

static void listing(struct scene *scene) { call(scene, MONITOR_LIST, SERVER + 1, 0); }

static const struct bench_case cases[] = {
    {"a message's round trip (5 calls), 4 processes", small, round_trip},
    {"a message's round trip (5 calls), 32 processes", full, round_trip},
    {"tick, 4 processes", small, tick},
    {"tick, 32 processes", full, tick},
    {"clean, 4 processes", small, clean},
    {"clean, 32 processes", full, clean},
    {"listing, 4 processes", small, listing},
    {"listing, 32 processes", full, listing},
};

int main(int arguments, char **argument)
{
    return run_cases(cases, sizeof cases / sizeof cases[0], arguments, argument);
}
