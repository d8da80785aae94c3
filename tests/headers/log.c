/*
 * The lines of include/elvomike/log.h there and back, by any compiler of C99 or C++11: records with something in every part, lines of
 * every other shape, and short arrays. Run with no word it checks these; with a log that carries answers on standard input and
 * the word 'copy' it reads each line and writes it anew, so that the log must come out as it went in.
 */
#include "elvomike/log.h"
/* again */
#include "elvomike/log.h"

#include <stdio.h>
#include <string.h>

static unsigned faults;

static void hold(bool condition, const char *what)
{
    if (condition) return;
    printf("log: %s.\n", what);
    faults++;
}

static bool says(const char *line, size_t chars, const char *text) { return chars == strlen(text) && memcmp(line, text, chars) == 0; }

/* A record with something in every part. */
static struct monitor_registers filled(unsigned call)
{
    struct monitor_registers r = {0, 0x1234, 0xABCD, {1, 2, 3, 0xFFFF}, 0x13, 4, 0x80, 0x20, {5, 6, 7, 0xFEDC}};
    r.call = (uint16_t)call;
    return r;
}

static void write_lines(void)
{
    static const uint16_t entry[] = {5, 2, 0x5245, 0x4144, 0}, row[] = {1, 2, 3, 4, 0xFFFF};
    static const struct { unsigned call; const char *line; } calls[] = {
        {0x01, "0112340000000100020003FFFF\n"}, {0x02, "02123400000000000000000000\n"}, {0x03, "03123400000000000000000000\n"},
        {0x04, "0412340000000100020003FFFF\n"}, {0x05, "051234ABCD0000000000000000\n"}, {0x06, "06123400000000000000000000\n"},
        {0x09, "09000000000000000000000000\n"}, {0x0A, "0A123400000000000000000000\n"}, {0x0B, "0B123400000000000000000000\n"},
        {0x0C, "0C123400000000000000000000\n"}, {0x0D, "0D123400000000000000000000\n"}, {0x2A, "2A1234ABCD000100020003FFFF\n"}};
    char line[MONITOR_LOG_CHARS_MOST];
    struct monitor_registers r = filled(MONITOR_LIST);
    for (size_t i = 0; i < sizeof calls / sizeof calls[0]; i++) {
        const struct monitor_registers asked = filled(calls[i].call);
        hold(says(line, monitor_log_call(&asked, line, sizeof line), calls[i].line), calls[i].line);
    }
    hold(says(line, monitor_log_layout(entry, line, sizeof line), "00000500025245414400000000\n"), "a layout line is another");
    hold(says(line, monitor_log_answer(&r, line, sizeof line), "> 13000400800020000500060007FEDC\n"), "an answer's line is another");
    hold(says(line, monitor_log_row(row, line, sizeof line), "> 0001000200030004FFFF\n"), "a row's line is another");
    hold(monitor_log_rows(&r) == 0, "a refused listing has rows");
    r.number = MONITOR_DONE;
    hold(monitor_log_rows(&r) == 4, "a listing has other rows than its kind says");
    r.call = MONITOR_CLEAN;
    hold(monitor_log_rows(&r) == 0, "a clean has rows");
}

/* What no line says, and arrays that are a character too short, leave the array alone. */
static void write_nothing(void)
{
    static const uint16_t five[] = {1, 2, 3, 4, 5};
    char line[MONITOR_LOG_CHARS_MOST], before[MONITOR_LOG_CHARS_MOST];
    struct monitor_registers r = filled(MONITOR_SEND);
    memset(line, '.', sizeof line);
    memcpy(before, line, sizeof line);
    hold(monitor_log_call(&r, line, MONITOR_LOG_CALL_CHARS - 1) == 0, "a call goes into a short array");
    hold(monitor_log_layout(five, line, MONITOR_LOG_CALL_CHARS - 1) == 0, "a layout line goes into a short array");
    hold(monitor_log_answer(&r, line, MONITOR_LOG_ANSWER_CHARS - 1) == 0, "an answer goes into a short array");
    hold(monitor_log_row(five, line, MONITOR_LOG_ROW_CHARS - 1) == 0, "a row goes into a short array");
    r.call = 0;
    hold(monitor_log_call(&r, line, sizeof line) == 0, "call 0 has a line");
    r.call = 0x100;
    hold(monitor_log_call(&r, line, sizeof line) == 0, "a call above 255 has a line");
    r.number = 0x100;
    hold(monitor_log_answer(&r, line, sizeof line) == 0, "a number above 255 has a line");
    hold(memcmp(line, before, sizeof line) == 0, "something was written all the same");
}

/* Of each line: whether it is a layout's, a call's, an answer's, a row's. */
static void read_lines(void)
{
    static const struct { const char *line, *is; } lines[] = {
        {"00000500025245414400000000", "l..."}, {"00000500025245414400000000\n", "l..."}, {"00000500025245414400000001", "...."},
        {"06000100000000000000000000", ".c.."}, {"0D0001FFFF0001FFFF0001FFFF\n", ".c.."}, {"2A000100020003000400050006", ".c.."},
        {"06000100010000000000000000", "...."}, {"09000100000000000000000000", "...."}, {"0B000100000000000000000001", "...."},
        {"02000100000000000000010000", "...."}, {"0b000100000000000000000000", "...."}, {"0600010000000000000000000", "...."},
        {"060001000000000000000000000", "...."}, {"06000100000000000000000000\r\n", "...."}, {"> 06000100000000000000000000", "...."},
        {"> 000001000000010000000000000000\n", "..a."}, {"000001000000010000000000000000", "..a."}, {"00010001000200010001", "...r"},
        {"> 00010001000200010001\n", "...r"}, {"> 0001000100020001000G", "...."}, {">00010001000200010001", "...."},
        {"", "...."}, {"\n", "...."}, {"> ", "...."}, {"FF", "...."}, {"> FF\n", "...."}};
    for (size_t i = 0; i < sizeof lines / sizeof lines[0]; i++) {
        const char *line = lines[i].line;
        const size_t chars = strlen(line);
        struct monitor_registers r = filled(MONITOR_TICK);
        uint16_t entry[MONITOR_ENTRY_WORDS], row[MONITOR_LISTING_WORDS];
        char is[5] = "....";
        if (monitor_log_read_layout(line, chars, entry)) is[0] = 'l';
        if (monitor_log_read_call(line, chars, &r)) is[1] = 'c';
        if (monitor_log_read_answer(line, chars, &r)) is[2] = 'a';
        if (monitor_log_read_row(line, chars, row)) is[3] = 'r';
        hold(strcmp(is, lines[i].is) == 0, line);
    }
}

/* The line of a log, written anew from what it says; 0 where it says nothing that a log does. */
static size_t anew(const char *line, size_t chars, char *again)
{
    struct monitor_registers r;
    uint16_t five[5];
    if (monitor_log_read_layout(line, chars, five)) return monitor_log_layout(five, again, MONITOR_LOG_CHARS_MOST);
    if (monitor_log_read_call(line, chars, &r)) return monitor_log_call(&r, again, MONITOR_LOG_CHARS_MOST);
    if (monitor_log_read_answer(line, chars, &r)) return monitor_log_answer(&r, again, MONITOR_LOG_CHARS_MOST);
    return monitor_log_read_row(line, chars, five) ? monitor_log_row(five, again, MONITOR_LOG_CHARS_MOST) : 0;
}

static void copy(void)
{
    char line[80], again[MONITOR_LOG_CHARS_MOST];
    while (fgets(line, sizeof line, stdin) != NULL) {
        const size_t chars = anew(line, strlen(line), again);
        hold(chars > 0, line);
        fwrite(again, 1, chars, stdout);
    }
}

int main(int words, char **word)
{
    if (words == 2 && strcmp(word[1], "copy") == 0) {
        copy();
    } else {
        write_lines();
        write_nothing();
        read_lines();
    }
    return faults == 0 ? 0 : 1;
}
