/* Of each spoiled table a listing is asked, by the archive and by the second implementation. */
#include <stdlib.h>

#include "spoiled.h"

bool spoiled_sound(const struct trial *trial, const char *how, size_t place)
{
    static struct outcome archive, second;
    by_archive(trial, &archive);
    by_second(trial, &second);
    if (!same_outcome(&archive, &second)) {
        printf("DIFFERENCE: %s %zu, as the second implementation and as the archive have it:\n", how, place);
        write_line(stdout, trial, &second);
        write_line(stdout, trial, &archive);
        exit(1);
    }
    return second.registers.number != MONITOR_TABLE_NOT_SOUND;
}
