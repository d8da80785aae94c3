/* Of each spoiled table of tests/monitor/spoiled.c it is asked why it isn't sound. */
#include <stdlib.h>

#include "asking.h"
#include "spoiled.h"

bool spoiled_sound(const struct trial *trial, const char *how, size_t place)
{
    unsigned long before = told[MONITOR_SOUND];
    watch_faults();
    if (!agree(&trial->table)) {
        printf("spoiled: %s %zu\n", how, place);
        exit(1);
    }
    return told[MONITOR_SOUND] != before;
}
