/* Both asked why a run of words is no sound table. Assumes a system with signals and mmap. */
#define _POSIX_C_SOURCE 200809L
#include "asking.h"

#include <signal.h>
#include <string.h>
#include <unistd.h>

#include "lent.h"
#include "second_why.h"

unsigned long told[CLAUSES];

static const struct run *asked;

static void print_words(void)
{
    for (size_t i = 0; i < asked->words; i++) printf("%04X%c", asked->word[i], i % 16 == 15 ? '\n' : ' ');
    printf("\nThe words can be put in a file and looked at with './explain --table'.\n");
}

static void on_fault(int number)
{
    (void)number;
    printf("\nDIFFERENCE: the archive touched a word that wasn't lent\n");
    print_words();
    fflush(stdout);
    _exit(1);
}

void watch_faults(void)
{
    struct sigaction fault = {.sa_handler = on_fault};
    sigaction(SIGSEGV, &fault, NULL);
    sigaction(SIGBUS, &fault, NULL);
}

/* Whether monitor_trap finds the words sound, by a listing, which changes none of them. */
static bool trap_sound(uint16_t *words, size_t count)
{
    uint16_t room[1] = {0};
    struct monitor_registers r = {.call = MONITOR_LIST, .a = 1};
    monitor_trap(words, count, room, 0, &r);
    return r.number != MONITOR_TABLE_NOT_SOUND;
}

static void print_fault(const char *who, struct monitor_fault f)
{
    printf("%s: clause %u, record %u, word %u: %s\n", who, f.clause, f.record, f.place, monitor_clause_text(f.clause));
}

bool agree(const struct run *table)
{
    static struct lent area;
    if (area.fence == NULL) area = lent_area(TABLE_MOST);
    asked = table;
    uint16_t *lent = lend(&area, table->word, table->words);
    struct monitor_fault second = second_why(table->word, table->words), archive = monitor_why(lent, table->words);
    bool sound = trap_sound(lent, table->words), kept = margin_kept(&area) && memcmp(lent, table->word, table->words * sizeof *lent) == 0;
    bool same = archive.clause == second.clause && archive.record == second.record && archive.place == second.place;
    if (same && kept && sound == (archive.clause == MONITOR_SOUND)) {
        told[second.clause]++;
        return true;
    }
    printf("\nDIFFERENCE%s\n", kept ? "" : ": the archive wrote to a word");
    print_fault("as the second implementation has it", second);
    print_fault("as the archive has it", archive);
    printf("monitor_trap finds the table %s\n", sound ? "sound" : "not sound");
    print_words();
    return false;
}
