/* file_set.h - inside the module of station_files.h: a set of files in one
 * folder, their sums, and the trouble met with them. Functions give SF_OK or
 * SF_TROUBLE. */
#ifndef FILE_SET_H
#define FILE_SET_H

#include "station_files.h"

#include <sys/types.h>

enum { FS_LINE = 80 }; /* one line of sums or of current */

typedef struct { int fd; unsigned long gen; } folder; /* gen 0: the station itself */
typedef char sums_text[SF_SUMS_MAX + 1];

/* Keep the trouble; `name` NULL: the folder itself; err 0: not the system's. */
int fs_bad(sf_station *s, unsigned long gen, const char *name, int err, const char *what);

/* Print the one line. Only the functions of station_files.h come to this, and
 * only once each. Returns `result`. */
int fs_say(const sf_station *s, int result, const char *advice);

int fs_read_file(sf_station *s, folder d, sf_file *f);
int fs_write_file(sf_station *s, folder d, const sf_file *f, mode_t mode); /* new, fsynced, closed */

int fs_check_set(sf_station *s, const sf_file *f, size_t count); /* are names and lengths in order? */
int fs_read_sums(sf_station *s, folder d, sums_text sums);
int fs_read_set(sf_station *s, folder d, sf_file *f, size_t count, const char *sums);

/* Write the files and their sums and fsync the folder. */
int fs_write_set(sf_station *s, folder d, const sf_file *f, size_t count, sums_text sums);

#endif
