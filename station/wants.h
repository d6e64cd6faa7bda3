/* wants.h - what a session wants done with files, as in station.h. Each gives
 * the event that tells how it went, after one line on stderr where it failed. */
#ifndef WANTS_H
#define WANTS_H

#include "station_files.h"

#include <stdint.h>

/* The station of this program. `files.fd` is -1 while it is not on the disk. */
typedef struct { const char *path; sf_station files; } station;

uint64_t wants_save(station *s);
uint64_t wants_restore(station *s);
uint64_t wants_make(const uint64_t *session);

/* The bytes are in lent_file. */
uint64_t wants_file(const uint64_t *session, size_t *length);

/* Load the station that the line names into lent_other: 0, or -1. */
int wants_other(const station *s, const uint64_t *session);

#endif
