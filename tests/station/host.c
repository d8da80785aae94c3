/* What a trial on this PC has around its station: lines go to standard output, and a halt ends the program with 3. */
#include <stdio.h>
#include <stdlib.h>

#include "pc.h"

void pc_paper(const char *line) { puts(line); }
void pc_screen(const char *line) { puts(line); }

void port_halt(const char *why)
{
    puts(why);
    exit(3);
}

void port_laid_out(const uint16_t *list, size_t words) { (void)list, (void)words; }
void port_noted(const struct monitor_registers *done, const uint16_t *room) { (void)done, (void)room; }
