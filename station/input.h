/* input.h - the lines of a session, from standard input or from the program's
 * arguments, as events of station.h. */
#ifndef INPUT_H
#define INPUT_H

#include <stddef.h>
#include <stdint.h>

/* The one line is these words, joined by a space. Without it the lines are
 * those of standard input. */
void input_from_words(char *const *words, int count);

/* No further line is read. */
void input_stop(void);

/* The next event: STATION_EVENT_LINE, _END_OF_INPUT, _INTERRUPT, _TOO_LONG. */
uint64_t input_next(void);

/* The line that was given last. */
const uint8_t *input_line(size_t *length);

int input_failed(void); /* standard input could not be read, and that was said */

#endif
