/* named.h - the files and folders that a line names. */
#ifndef NAMED_H
#define NAMED_H

#include <stddef.h>
#include <stdint.h>

enum { NAMED_MAX = 1024 + 1 }; /* a line's bytes, and the final 0 */

/* The bytes from .. to of the line as a string: 0, or -1 after one line that
 * says what is wrong. */
int named_string(char out[NAMED_MAX], uint64_t from, uint64_t to);

/* The first `limit` bytes of the file of that name: 0, or -1 after one line
 * that says what is wrong. */
int named_read(uint64_t from, uint64_t to, uint8_t *data, size_t limit, size_t *length);

#endif
