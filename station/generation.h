/* generation.h - inside the module of station_files.h: the folders N of a
 * station, and `current`, which says which of them is in force. Functions give
 * SF_OK or SF_TROUBLE where nothing else is said. */
#ifndef GENERATION_H
#define GENERATION_H

#include "file_set.h"

#include <fcntl.h>

enum { CURRENT_MAX = 63 };
typedef char current_text[CURRENT_MAX + 1];

#define FOLDER (O_RDONLY | O_DIRECTORY)

int generation_is_there(sf_station *s, unsigned long gen);

/* Remove what this module made in a generation, and nothing else: 0, or -1
 * with errno. */
int generation_remove(sf_station *s, unsigned long gen, const sf_file *f, size_t count);

int generation_make(sf_station *s, unsigned long gen, const sf_file *f, size_t count, sums_text sums);

/* The folder and its sums; fd -1: trouble. */
folder generation_open(sf_station *s, unsigned long gen, sums_text sums);

/* Read a generation; with `text` of `current` given, also check that it is the
 * one that `current` speaks of. */
int generation_read(sf_station *s, unsigned long gen, sf_file *f, size_t count, const char *text);

/* `current` is a number, then the sum and length of that generation's sums. A
 * bare number is taken too: a person may write one to repair the station. */
int current_read(sf_station *s, unsigned long *gen, current_text text);
int current_check(sf_station *s, const current_text text, unsigned long gen, const char *sums);

/* Make a whole generation the present one. */
int current_commit(sf_station *s, unsigned long gen, const char *sums);

#endif
