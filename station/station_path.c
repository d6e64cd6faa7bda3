/* station_path.c - see station_path.h. */
#include "station_path.h"

#include "file_set.h"

#include <string.h>

int path_set(sf_station *s, const char *path)
{
    size_t n = strlen(path);
    memset(s, 0, sizeof *s);
    s->fd = -1;
    while (n > 1 && path[n - 1] == '/')
        n--;
    if (n == 0 || n >= SF_PATH_MAX)
        return fs_bad(s, 0, NULL, 0, "the path is empty or too long");
    memcpy(s->path, path, n);
    return SF_OK;
}
