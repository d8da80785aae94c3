/*
 * Two logs compared line by line, for C and C++ programs on x86-64 (System V).
 *
 * Link with libelvomike-compare.a; it needs nothing of the monitor's. A log is
 * any bytes at all, lent and not changed, cut into lines at the byte 0A hex; the last line may lack it. Lines
 * count from 1 and are compared without their ends. Nothing lent is kept after a call returns; there is no
 * allocation and no global.
 *
 *     uint64_t room[100];
 *     size_t count, start;
 *     if (compare_differences(one, one_size, two, two_size, room, 100, &count) == COMPARE_DONE)
 *         ... room[0] to room[count - 1] are the numbers of the lines that differ
 *     unsigned log = compare_rest(one, one_size, two, two_size, &start);
 *         ... log 1 or 2 runs on from its byte 'start' on, to its end
 *
 * Sizes of logs count bytes, the room's counts words. No pointer may be NULL, not even one to no bytes. The room and
 * the place for a number must not overlap each other or a log; the two logs may be the same bytes. Any bytes
 * are a log, so nothing but a room too short is refused.
 */
#ifndef COMPARE_H
#define COMPARE_H

#include <stddef.h>
#include <stdint.h>

#ifdef __cplusplus
extern "C" {
#endif

enum compare_refusal {
    COMPARE_DONE = 0,
    COMPARE_ROOM_TOO_SHORT = 14 /* the room has fewer words than there are numbers */
};

/*
 * The numbers of the lines at which the logs differ, each once, rising; a line that only one log has differs.
 * They go into the room, whose words behind them stay, and how many there are into count. Gives COMPARE_DONE, or
 * COMPARE_ROOM_TOO_SHORT: then the room stays as it was and the count is 0. A room of as many words as the
 * longer log has lines is always enough.
 */
uint16_t compare_differences(const uint8_t *one, size_t one_size, const uint8_t *two, size_t two_size,
                             uint64_t *room, size_t room_words, size_t *count);

/*
 * The rest of whichever log runs on: its bytes behind as many lines as the other has, up to its end. Gives the log's
 * number, 1 or 2, and puts the place where the rest begins into start. Where neither runs on: 1 and its end.
 */
uint16_t compare_rest(const uint8_t *one, size_t one_size, const uint8_t *two, size_t two_size, size_t *start);

/*
 * For logs that are compared a piece at a time: as long as the pieces of both have the same number of lines,
 * the numbers of a piece, with the number of lines before it added, are those of the whole.
 */

/* How many bytes the whole lines have that both logs begin with: the most that are the same and end a line. */
size_t compare_front(const uint8_t *one, size_t one_size, const uint8_t *two, size_t two_size);

/* How many lines a log has. */
size_t compare_lines(const uint8_t *log, size_t size);

/* Where in a log the bytes after so many lines begin: its end, where it has no more lines than that. */
size_t compare_after(const uint8_t *log, size_t size, size_t lines);

#ifdef __cplusplus
}
#endif

#endif
