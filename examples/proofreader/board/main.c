/* The proofreader on a board: a built-in text, which ports/build makes of a file, and an operator who cleans
 * as often as BOARD_CLEANS says. */
#include "proofreader.h"

#ifndef BOARD_CLEANS
#define BOARD_CLEANS 0
#endif

extern const char board_text[];
extern const unsigned long board_text_bytes;

int main(void)
{
    static const char *words[BUILT_IN_WORDS_MOST];
    proofreader.words = words;
    proofreader.word_count = built_in_words(words);
    proofreader.cleans = BOARD_CLEANS;
    if (!text_take(board_text, board_text_bytes)) port_halt("the text is too long for this board");
    proofreader.pages = (uint16_t)text_pages();
    station_run(&proofreader_station);
    return 0;
}
