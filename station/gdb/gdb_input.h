/* gdb_input.h - the bytes that gdb sent and that no turn has used yet. */
#ifndef GDB_INPUT_H
#define GDB_INPUT_H

#include <stddef.h>
#include <stdint.h>

const uint8_t *gdb_input_bytes(size_t *count);

/* The first `count` bytes are used. */
void gdb_input_use(uint64_t count);

/* Takes in what has come, and with `wait` waits for something to come, or for a
 * signal. 0: no more will come, and what is there is no whole packet, or nothing. */
int gdb_input_more(int wait);

#endif
