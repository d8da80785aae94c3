/*
 * The digest of tests/portable/digest.h. Draws stand in the order of their statements, never in one argument list. It wants no
 * library of C and 4 KB of memory, so that it runs on any board; what it draws and mixes is counted in words, so that it comes to the
 * same number on each.
 */
#include "digest.h"

#include "elvomike/compare.h"
#include "elvomike/delays.h"
#include "elvomike/quick.h"
#include "elvomike/screen.h"
#include "elvomike/tape.h"
#include "elvomike/why.h"

#define PROCESSES 6u
#define BUFFERS 14u
#define SEMAPHORES 2u
#define WORDS MONITOR_TABLE_WORDS(PROCESSES, BUFFERS, SEMAPHORES)
#define ROOM (MONITOR_LISTING_WORDS * BUFFERS)
#define REPORT 48u
#define ENTRIES 64u
#define BYTES 40u

uint32_t digest_done, digest_refused;

static uint32_t seed, sum;
static uint16_t table[WORDS], room[ROOM], report_room[REPORT], queue[DELAYS_WORDS(PROCESSES)];

static uint16_t draw(uint16_t below)
{
    seed = seed * 1103515245u + 12345u;
    return (uint16_t)((seed >> 16) % below);
}

static void mix(uint16_t word)
{
    sum = (sum ^ (word & 255u)) * 16777619u;
    sum = (sum ^ (uint16_t)(word >> 8)) * 16777619u;
}

static void mix_all(const uint16_t *words, uint16_t count)
{
    for (uint16_t i = 0; i < count; i++) mix(words[i]);
}

static void lay_out(void)
{
    uint16_t list[MONITOR_ENTRY_WORDS * PROCESSES], counters[SEMAPHORES] = { 1, 0 };
    for (uint16_t p = 0; p < PROCESSES; p++) {
        uint16_t *entry = list + MONITOR_ENTRY_WORDS * p;
        entry[0] = (uint16_t)(3 + p % 3);
        entry[1] = p == PROCESSES - 1 ? 4 : 2;
        entry[2] = (uint16_t)(0x4100 + 256 * p);
        entry[3] = entry[4] = 0;
    }
    uint16_t place = draw(MONITOR_ENTRY_WORDS * PROCESSES), bit = draw(16), edition = draw(3), words = draw(16) == 0 ? WORDS - 1 : WORDS;
    if (draw(4) == 0) list[place] ^= (uint16_t)(1u << bit);
    mix(monitor_layout(list, MONITOR_ENTRY_WORDS * PROCESSES, edition, counters, SEMAPHORES, table, words));
}

/* The words of the record, in its order. */
static void mix_registers(const struct monitor_registers *r)
{
    mix(r->call), mix(r->a), mix(r->b), mix_all(r->w, 4);
    mix(r->number), mix(r->kind), mix(r->buffer), mix(r->current), mix_all(r->r, 4);
}

static void call(void)
{
    struct monitor_registers r = { .call = (uint16_t)(draw(50) == 0 ? draw(20) : 1 + draw(13)) };
    struct monitor_walk walk = { 9, 9, 9, 9 };
    r.a = (uint16_t)(draw(16) == 0 ? draw(100) : draw(r.call == 2 || r.call == 4 ? BUFFERS + 1 : PROCESSES + 1));
    r.b = draw(4);
    for (uint16_t i = 0; i < 4; i++) r.w[i] = draw(60000);
    uint16_t place = draw(WORDS), kept = table[place], spoils = draw(40) == 0;
    if (spoils) table[place] ^= (uint16_t)(1u << draw(16));
    uint16_t entry = draw(3);
    if (entry == 0) monitor_trap_walked(table, WORDS, room, ROOM, &r, &walk);
    else if (entry == 1 && monitor_sound(table, WORDS)) monitor_quick(table, WORDS, room, ROOM, &r);
    else monitor_trap(table, WORDS, room, ROOM, &r);
    if (spoils && r.number == MONITOR_TABLE_NOT_SOUND) table[place] = kept;
    mix_registers(&r);
    mix(walk.entries), mix(walk.passed), mix(walk.most), mix(walk.moved);
    if (r.number == MONITOR_DONE) digest_done++;
    else digest_refused++;
}

/* Why the table isn't sound, with one word spoiled at times, or with the last cut off. */
static void fault(void)
{
    uint16_t place = draw(WORDS), bit = draw(16), kept = table[place], words = draw(16) == 0 ? draw(WORDS) : WORDS;
    if (draw(4)) table[place] ^= (uint16_t)(1u << bit);
    struct monitor_fault found = monitor_why(table, words);
    mix(found.clause), mix(found.record), mix(found.place);
    table[place] = kept;
}

static void reports(void)
{
    struct monitor_stuck_report stuck = { 9, 9, 9 };
    struct monitor_rings_report rings = { 9, 9, 9 };
    struct monitor_summary screen[PROCESSES] = { { 9, 9, 9, 9 } };
    uint16_t words = draw(REPORT), process = draw(PROCESSES + 2);
    monitor_stuck(table, WORDS, report_room, words, process, &stuck);
    mix(stuck.number), mix(stuck.count), mix(stuck.ring);
    monitor_rings(table, WORDS, report_room, draw(REPORT), &rings);
    mix(rings.number), mix(rings.rings), mix(rings.words);
    mix_all(report_room, REPORT);
    mix(monitor_screen(table, WORDS, screen, PROCESSES - (draw(8) == 0)));
    for (uint16_t p = 0; p < PROCESSES; p++) mix(screen[p].number), mix(screen[p].state), mix(screen[p].queue), mix(screen[p].sent);
}

static void clock(void)
{
    uint16_t process = draw(PROCESSES + 2), words = DELAYS_WORDS(PROCESSES);
    if (draw(60) == 0) mix(delays_make(queue, words, draw(PROCESSES + 1)));
    uint16_t place = draw(words), bit = draw(16), delay = draw(3) == 0 ? draw(60000) : draw(5);
    if (draw(60) == 0) queue[place] ^= (uint16_t)(1u << bit);
    mix(delays_wait(queue, words, process, delay));
    if (draw(3) == 0) mix(delays_leave(queue, words, draw(PROCESSES + 2)));
    struct delays_ticked ticked = delays_tick(queue, words, report_room, draw(16) == 0 ? 3 : PROCESSES);
    struct delays_delay left = delays_left(queue, words, process);
    mix(ticked.number), mix((uint16_t)ticked.count), mix(left.number), mix(left.time), mix(delays_shown(queue, words));
    mix_all(queue, words);
}

static void tape(void)
{
    static const uint8_t classes[] = { 0, 0, 0, 128, 129, 130, 132, 136, 255, 7 };
    static const uint16_t modes[] = { 1, 5, 9, 9, 2 };
    uint8_t bytes[BYTES], area[BYTES];
    uint16_t entries[ENTRIES];
    for (uint16_t i = 0; i < BYTES; i++) bytes[i] = (uint8_t)draw(256), area[i] = 7;
    for (uint16_t i = 0; i < ENTRIES; i++) {
        uint16_t class = classes[draw(draw(4) ? 8 : 10)], value = draw(draw(2) ? 8 : 256);
        entries[i] = (uint16_t)(class * 256u + value);
    }
    for (uint16_t i = 0; i < BYTES; i++) bytes[i] = draw(3) ? (uint8_t)(bytes[i] & 31) : bytes[i];
    uint16_t mode = modes[draw(5)], words = draw(3) ? ENTRIES : 0, from = draw(60), size = draw(BYTES);
    struct tape_taken t = tape_read(mode, bytes, BYTES, entries, words, (int32_t)from - 20, area, size);
    mix(t.number), mix((uint16_t)t.stored), mix((uint16_t)t.read), mix(t.status);
    mix((uint16_t)(uint32_t)t.base), mix((uint16_t)((uint32_t)t.base >> 16));
    for (uint16_t i = 0; i < BYTES; i++) mix(area[i]);
}

static void logs(void)
{
    uint8_t one[BYTES], two[BYTES];
    uint64_t numbers[8];
    uint16_t sizes[2], place = draw(BYTES), words = draw(9);
    size_t count = 9, start = 9;
    sizes[0] = draw(BYTES);
    sizes[1] = draw(BYTES);
    for (uint16_t i = 0; i < BYTES; i++) two[i] = one[i] = draw(4) ? (uint8_t)(65 + draw(2)) : 10;
    if (draw(2)) two[place] ^= 1;
    for (uint16_t i = 0; i < 8; i++) numbers[i] = UINT64_C(0x1234567800000009);
    mix(compare_differences(one, sizes[0], two, sizes[1], numbers, words, &count)), mix((uint16_t)count);
    mix(compare_rest(one, sizes[0], two, sizes[1], &start)), mix((uint16_t)start);
    mix((uint16_t)compare_front(one, sizes[0], two, sizes[1])), mix((uint16_t)compare_lines(one, sizes[0]));
    mix((uint16_t)compare_after(two, sizes[1], draw(5)));
    for (uint16_t i = 0; i < 8; i++) mix((uint16_t)numbers[i]), mix((uint16_t)(numbers[i] >> 32));
}

uint32_t digest(uint32_t rounds)
{
    seed = 12345, sum = 2166136261u, digest_done = 0, digest_refused = 0;
    for (uint16_t i = 0; i < WORDS; i++) table[i] = i;
    for (uint16_t i = 0; i < DELAYS_WORDS(PROCESSES); i++) queue[i] = i == 1 ? PROCESSES : 0;
    for (uint32_t i = 0; i < rounds; i++) {
        if (i % 100 == 0) lay_out();
        call();
        if (i % 8 == 0) fault(), reports(), clock(), tape(), logs();
    }
    mix_all(table, WORDS);
    mix_all(room, ROOM);
    return sum;
}
