/* What ./tape and ./station read: whole files, and rows of holes as text. Whatever is wrong ends the program. */
#ifndef INPUT_H
#define INPUT_H

#include <stddef.h>
#include <stdint.h>

struct bytes {
    uint8_t *byte;
    size_t count;
};

/* The command's name, with which its sentences begin; the program around defines it. */
extern const char *const command;

/* Says one sentence, made as printf does, and ends the program with 2. */
_Noreturn void fail(const char *sentence, ...);

/* All bytes of a file, or of standard input where the name is NULL. There is always a byte behind the
 * last, and it is 0. */
struct bytes read_whole(const char *name);

/* A tape written as text, a row of eight holes a line, top bit first: 'o' is a hole, '.' none. What
 * follows a row behind a blank is for the eye, and so are empty lines and lines that begin with '#'. */
struct bytes read_rows(const char *name);

/* Cuts the next line off a text that ends in a byte 0; NULL behind the last. */
char *next_line(char **text);

#endif
