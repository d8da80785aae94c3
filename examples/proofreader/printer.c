/*
 * The line printer: gathers the lines of a page with their marks, and prints the page when it has them all; and the
 * screen. A page that is out is not printed again, when a reader that was cleaned before it heard so asks once more.
 */
#include "proofreader.h"

enum { PATIENCE = 50, WIDTH = LINE_BYTES + 64 }; /* ticks that a line may take; bytes of a printed line */

static uint16_t page_out; /* the last page that was printed; it outlives a clean */

/* A line goes out, and is waited for. */
static void put_out(const char *line)
{
    bool came;
    port_print(line);
    station_wait_interrupt(PORT_PRINTER, PATIENCE, &came);
}

/* The line as it is printed: a control character is a blank. */
static void put_line(struct text_line line)
{
    char printed[WIDTH];
    unsigned i = 0;
    for (; i < line.bytes; i++) printed[i] = (unsigned char)line.at[i] < ' ' && line.at[i] != '\t' ? ' ' : line.at[i];
    printed[i] = 0;
    put_out(printed);
}

/* The marks under it, if there is one; a character of several bytes has one column. */
static void put_marks(struct text_line line, struct marks marks)
{
    char printed[WIDTH], *to = printed, *end = printed;
    struct text_word word;
    const char *from = line.at;
    for (unsigned at = 0, n = 0; text_next_word(&line, &at, &word); n++) {
        if (!is_marked(marks, n)) continue;
        for (; from < line.at + at; from++) {
            if (((unsigned char)*from & 0xC0) == 0x80) continue;
            *to++ = from >= word.at ? '^' : *from == '\t' ? '\t' : ' ';
        }
        end = to;
    }
    *end = 0;
    if (end != printed) put_out(printed);
}

static unsigned count_marks(const struct marks *marks, unsigned lines)
{
    unsigned count = 0;
    for (unsigned i = 0; i < lines; i++)
        for (unsigned n = 0; n < LINE_WORDS; n++) count += is_marked(marks[i], n);
    return count;
}

static void put_page(uint16_t page, const struct marks *marks)
{
    char head[WIDTH], *end = put_number(put_text(head, "PAGE "), page);
    unsigned lines = text_lines(page), mistakes = count_marks(marks, lines);
    end = put_number(put_text(end, ", "), mistakes);
    put_text(end, mistakes == 1 ? " word to look at" : " words to look at");
    put_out(head);
    for (unsigned i = 0; i < lines; i++) {
        put_line(text_line(page, i));
        put_marks(text_line(page, i), marks[i]);
    }
    put_out("");
}

/* Prints the page unless it is out already. Nobody is cleaned meanwhile. */
static void print_once(uint16_t page, const struct marks *marks)
{
    station_lower(PAPER);
    if (page != page_out) {
        put_page(page, marks);
        page_out = page;
        proofreader.printed++;
    }
    station_raise(PAPER);
}

void printer(void)
{
    static struct marks marks[PAGE_LINES];
    struct station_event event;
    unsigned gathered = 0;
    uint16_t gathered_page = 0;
    for (;;) {
        station_wait_event(0, &event);
        if (event.kind != MONITOR_KIND_MESSAGE) continue;
        uint16_t page = event.w[0], line = event.w[1], w[4] = {page, line, 0, 0};
        if (line == 0) {
            gathered = 0;
            gathered_page = page;
        }
        if (page == gathered_page && line == gathered && line < text_lines(page))
            marks[gathered++] = (struct marks){event.w[2], event.w[3]};
        if (page == gathered_page && gathered == text_lines(page)) {
            print_once(page, marks);
            w[2] = 1;
        }
        station_answer(event.buffer, w);
    }
}

void screen(void)
{
    struct station_event event;
    for (;;) {
        station_wait_event(0, &event);
        if (event.kind != MONITOR_KIND_MESSAGE) continue;
        char shown[WIDTH], *end = put_number(put_text(shown, "page "), event.w[0]);
        end = put_number(put_text(end, ": "), event.w[3]);
        end = put_number(put_text(end, " of "), event.w[2]);
        put_text(end, " words are not in the list");
        port_show(shown);
        station_answer(event.buffer, event.w);
    }
}
