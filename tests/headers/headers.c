/*
 * What the headers say can be checked as they are compiled, by any compiler of C99 or C++: places by docs/MONITOR.md's
 * table, sizes of the records, the version. Run, it checks that each number of refusal and each clause has a text of its own.
 * Each header is included twice, and signed variables go into the macros, so that no warning is left to a station.
 */
#include "elvomike/calls.h"
#include "elvomike/compare.h"
#include "elvomike/delays.h"
#include "elvomike/log.h"
#include "elvomike/monitor.h"
#include "elvomike/quick.h"
#include "elvomike/screen.h"
#include "elvomike/table.h"
#include "elvomike/tape.h"
#include "elvomike/why.h"
/* again */
#include "elvomike/calls.h"
#include "elvomike/compare.h"
#include "elvomike/delays.h"
#include "elvomike/log.h"
#include "elvomike/monitor.h"
#include "elvomike/quick.h"
#include "elvomike/screen.h"
#include "elvomike/table.h"
#include "elvomike/tape.h"
#include "elvomike/why.h"

#include <stdio.h>
#include <string.h>

#define IS(name, condition) typedef char name[(condition) ? 1 : -1]

#if MONITOR_VERSION < MONITOR_VERSION_OF(0, 2, 0) || MONITOR_VERSION >= MONITOR_VERSION_OF(1000, 0, 0)
#error "the version is one that can be compared"
#endif

IS(largest_table, MONITOR_TABLE_WORDS_MOST == 1928);
IS(header_places, MONITOR_PROCESSES_PLACE == 0 && MONITOR_BUFFERS_PLACE == 1 && MONITOR_CURRENT_PLACE == 2 &&
                      MONITOR_RUNNING_LAST_PLACE == 3 && MONITOR_EDITION_PLACE == 4 && MONITOR_SEMAPHORES_PLACE == 5);
IS(device_places, MONITOR_DEVICE_PLACE(0) == 8 && MONITOR_DEVICE_PLACE(63) == 71);
IS(queue_places, MONITOR_NEXT_RUNNING_PLACE(1) == 72 && MONITOR_PREVIOUS_RUNNING_PLACE(1) == 73 &&
                     MONITOR_FIRST_EVENT_PLACE(1) == 74 && MONITOR_LAST_EVENT_PLACE(1) == 75);
IS(waiting_places, MONITOR_STATE_PLACE(2) == 92 && MONITOR_REASON_PLACE(2) == 93 && MONITOR_DELAY_PLACE(2) == 94 &&
                       MONITOR_AWAITED_BUFFER_PLACE(2) == 95 && MONITOR_AWAITED_DEVICE_PLACE(2) == 96);
IS(layout_places, MONITOR_PRIORITY_PLACE(2) == 97 && MONITOR_FIRST_OWN_PLACE(2) == 98 && MONITOR_OWNS_PLACE(2) == 99 &&
                      MONITOR_NAME_PLACE(2) == 100 && MONITOR_AWAITED_SEMAPHORE_PLACE(2) == 103);
IS(link_places, MONITOR_NEXT_EVENT_PLACE(2, 1) == 104 && MONITOR_PREVIOUS_EVENT_PLACE(2, 1) == 105);
IS(buffer_places, MONITOR_OWNER_PLACE(2, 2) == 116 && MONITOR_RECEIVER_PLACE(2, 2) == 117 &&
                      MONITOR_STANDING_PLACE(2, 2) == 118 && MONITOR_AGE_PLACE(2, 2) == 119);
IS(last_buffer_word, MONITOR_WORDS_PLACE(32, 128) + 4 == MONITOR_TABLE_WORDS(32, 128, 0));
IS(last_word, MONITOR_SEMAPHORE_PLACE(32, 128, 16, MONITOR_SEMAPHORE_ZERO) + 1 == MONITOR_TABLE_WORDS_MOST);
IS(register_record, sizeof(struct monitor_registers) == 30);
IS(reports, sizeof(struct monitor_stuck_report) == 6 && sizeof(struct monitor_rings_report) == 6);
IS(faults, sizeof(struct monitor_fault) == 6 && MONITOR_CLAUSE_DEVICE == 48);
IS(short_records, sizeof(struct monitor_walk) == 8 && sizeof(struct monitor_summary) == 8);
IS(entries, TAPE_ENTRY(TAPE_UP, 7) == 0x8207);
IS(queue_words, DELAYS_WORDS(3) == 8);

/* Signed variables, as a station may have them. */
static size_t places(int processes, int p, int b, int d)
{
    return MONITOR_STATE_PLACE(p) + MONITOR_AGE_PLACE(processes, b) + MONITOR_DEVICE_PLACE(d);
}

/* Clauses 0 to 49, of which the last has no name, have texts of their own, and records of the kinds that there are. */
static int clauses_told(void)
{
    unsigned one, other;
    for (one = 0; one <= MONITOR_CLAUSE_DEVICE + 1; one++)
        for (other = 0; other < one; other++)
            if (strcmp(monitor_clause_text(one), monitor_clause_text(other)) == 0) {
                printf("headers: clauses %u and %u have the same text.\n", one, other);
                return 0;
            }
    return strcmp(monitor_clause_record(MONITOR_CLAUSE_EDITION), "table") == 0 &&
           strcmp(monitor_clause_record(MONITOR_CLAUSE_OWNER), "buffer") == 0 &&
           strcmp(monitor_clause_record(MONITOR_CLAUSE_WAITING_START), "semaphore") == 0 &&
           strcmp(monitor_clause_record(MONITOR_CLAUSE_WAITING_NEXT), "process") == 0 &&
           strcmp(monitor_clause_record(MONITOR_CLAUSE_DEVICE), "device") == 0 && strcmp(monitor_clause_record(49), "record") == 0;
}

int main(void)
{
    static const unsigned number[] = {0, 1, 2, 3, 4, 5, 6, 7, 8, 9, 10, 11, 12, 13, 19, 20, 14};
    size_t one, other;
    if (places(2, 1, 1, 0) != 76 + 109 + 8) return 1;
    for (one = 0; one < sizeof number / sizeof number[0]; one++)
        for (other = 0; other < one; other++)
            if (strcmp(monitor_refusal_text(number[one]), monitor_refusal_text(number[other])) == 0) {
                printf("headers: %u and %u have the same text.\n", number[one], number[other]);
                return 1;
            }
    if (strcmp(monitor_refusal_text(14), monitor_refusal_text(65535)) != 0 || !clauses_told()) return 1;
    printf("%s\n", MONITOR_VERSION_TEXT);
    return 0;
}
