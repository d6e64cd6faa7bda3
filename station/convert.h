/* convert.h - a station that was saved by an earlier version of this program.
 * Nothing here looks into a file: lengths tell the version, and the call of
 * lavushmir.h judges the rest. */
#ifndef CONVERT_H
#define CONVERT_H

#include "lent.h"

/* Whether a set that was read is of an earlier version: it has a shorter image. */
int convert_is_old(const lent_set *set);

/* The same; where it is, says how the station at `path` is converted. */
int convert_is_due(const char *path, const lent_set *set);

/* lavushmir --convert: the present save of the station, converted, becomes the
 * next one; the old one stays. Gives the exit status. */
int convert_station(const char *path);

#endif
