/* station_path.h - inside the module of station_files.h: begin with a path. */
#ifndef STATION_PATH_H
#define STATION_PATH_H

#include "station_files.h"

/* Nothing is open, and the path is `path` without its last slashes: SF_OK, or
 * SF_TROUBLE where it is empty or too long. */
int path_set(sf_station *s, const char *path);

#endif
