/* The console, INPUT, and the end of a run. */
#ifndef CONSOLE_H
#define CONSOLE_H

#include <stdint.h>

void print(const char *text);
void print_byte(char byte);
void print_decimal(uint64_t number);
void print_hexadecimal(uint64_t number); /* without leading zeros */

/* The next byte of INPUT, or -1 at its end. */
int read_byte(void);

/* Reads up to a line's LF, which isn't kept, or to the end of INPUT, and ends the text with a zero; what doesn't fit is
 * lost. Returns the number of bytes kept, or -1 where INPUT was at its end. */
int read_line(char *line, int size);

/* Ends the run: halted with interrupts off, the machine rests for good. */
__attribute__((noreturn)) void end_run(void);

#endif
