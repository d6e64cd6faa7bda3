/* output.h - what a session shows. */
#ifndef OUTPUT_H
#define OUTPUT_H

#include <stddef.h>
#include <stdint.h>

/* To standard output (stream 0) or standard error. When standard output takes
 * no more, one line says so, and what would follow there is left out. */
void output_write(unsigned stream, const uint8_t *bytes, size_t count);

int output_failed(void);

/* A whole text to standard output. Gives the exit status of a program that has
 * nothing else to do. */
int output_show(const char *text);

#endif
