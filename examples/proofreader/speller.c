/*
 * The speller: takes up the lines that come within a few ticks, goes through them with the word list in hand, and answers
 * them in their order. The list is kept in the order of use: a word that was found moves one place to the front, so
 * that common words are soon found early. A list that is left in the middle of such a move has lost a word, so nobody
 * else may have it then: hence the semaphore.
 */
#include "proofreader.h"

enum { JOBS_MOST = 4, GATHERING = 3 }; /* lines, and ticks between two of them, that make a round */

struct job {
    uint16_t buffer, page, sum, line;
    struct marks marks;
};

static char small(char c) { return c >= 'A' && c <= 'Z' ? (char)(c - 'A' + 'a') : c; }

static bool is_same(const char *listed, const struct text_word *word)
{
    for (unsigned i = 0; i < word->bytes; i++)
        if (listed[i] != small(word->at[i])) return false;
    return listed[word->bytes] == 0;
}

/* Looks for the word; by whoever has the list. */
static bool is_listed(const struct text_word *word)
{
    const char **list = proofreader.words;
    for (unsigned i = 0; i < proofreader.word_count; i++) {
        if (!is_same(list[i], word)) continue;
        if (i > 0) {
            const char *found = list[i];
            list[i] = list[i - 1];
            list[i - 1] = found;
        }
        return true;
    }
    return false;
}

static struct marks marks_of(const struct job *job)
{
    struct text_line line = text_line(job->page, job->line);
    struct marks marks = {0, 0};
    struct text_word word;
    for (unsigned at = 0, n = 0; n < LINE_WORDS && text_next_word(&line, &at, &word); n++) {
        if (is_listed(&word)) continue;
        if (n < 16)
            marks.first |= (uint16_t)(1u << n);
        else
            marks.second |= (uint16_t)(1u << (n - 16));
    }
    return marks;
}

/* Takes up the next line, waiting at most so many ticks; false if none came. */
static bool take_up(unsigned delay, struct job *job)
{
    struct station_event event;
    station_wait_event(delay, &event);
    if (event.kind != MONITOR_KIND_MESSAGE) return false;
    *job = (struct job){event.buffer, event.w[0], event.w[1], event.w[2], {0, 0}};
    return true;
}

void speller(void)
{
    struct job job[JOBS_MOST];
    for (;;) {
        unsigned jobs = take_up(0, &job[0]) ? 1 : 0;
        while (jobs > 0 && jobs < JOBS_MOST && take_up(GATHERING, &job[jobs])) jobs++;
        station_lower(LIST);
        for (unsigned i = 0; i < jobs; i++) job[i].marks = marks_of(&job[i]);
        station_raise(LIST);
        for (unsigned i = 0; i < jobs; i++) {
            uint16_t w[4] = {job[i].page, job[i].sum, job[i].marks.first, job[i].marks.second};
            station_answer(job[i].buffer, w);
        }
    }
}
