/* create.c - a new station: see sf_create in station_files.h. */
#include "station_files.h"

#include "generation.h"
#include "io.h"
#include "station_path.h"

#include <errno.h>
#include <stdio.h>
#include <string.h>
#include <sys/file.h>
#include <sys/stat.h>
#include <unistd.h>

typedef struct { const sf_file *roms; size_t rom_count; const sf_file *files; size_t count; } contents;

static int fill(sf_station *s, const contents *c)
{
    sums_text sums;
    folder d = {s->fd, 0};
    int r;
    if (flock(s->fd, LOCK_EX | LOCK_NB) != 0) /* so it is locked when it gets its name */
        return fs_bad(s, 0, NULL, errno, "cannot be locked");
    r = fs_write_set(s, d, c->roms, c->rom_count, sums);
    if (r == SF_OK)
        r = generation_make(s, 1, c->files, c->count, sums);
    return r == SF_OK ? current_commit(s, 1, sums) : r;
}

/* Best effort: what stays, stays under the temporary name. */
static void unfill(sf_station *s, const contents *c)
{
    (void)generation_remove(s, 1, c->files, c->count);
    for (size_t i = 0; i < c->rom_count; i++)
        (void)io_unlink(s->fd, c->roms[i].name);
    (void)io_unlink(s->fd, "sums");
    (void)io_unlink(s->fd, "current.new");
    (void)io_unlink(s->fd, "current");
}

static int give_name(sf_station *s, int parent, const char *temporary, const char *base)
{
    int r;
    if (renameat(parent, temporary, parent, base) != 0)
        return fs_bad(s, 0, NULL, errno, "cannot be given its name");
    if (io_sync(parent) == 0)
        return SF_OK;
    r = fs_bad(s, 0, NULL, errno, "cannot be put on the disk");
    (void)renameat(parent, base, parent, temporary); /* if not, it stays there whole */
    return r;
}

static int create_in(sf_station *s, int parent, const char *base, const contents *c)
{
    char temporary[SF_PATH_MAX + 32];
    struct stat st;
    int r;
    if (*base == '\0' || fstatat(parent, base, &st, AT_SYMLINK_NOFOLLOW) == 0 || errno != ENOENT)
        return fs_bad(s, 0, NULL, 0, "is there already, or is no name for a new folder");
    (void)snprintf(temporary, sizeof temporary, "%s.new-%ld", base, (long)getpid());
    if (mkdirat(parent, temporary, 0777) != 0)
        return fs_bad(s, 0, NULL, errno, "cannot be made");
    s->fd = io_open(parent, temporary, FOLDER | O_NOFOLLOW, 0);
    r = s->fd < 0 ? fs_bad(s, 0, NULL, errno, "cannot be made") : fill(s, c);
    if (r == SF_OK)
        r = give_name(s, parent, temporary, base);
    if (r == SF_OK)
        return r;
    /* A rename that failed may yet have happened (NFS): then all is whole. */
    if (s->fd >= 0 && fstatat(parent, temporary, &st, AT_SYMLINK_NOFOLLOW) == 0)
        unfill(s, c);
    (void)unlinkat(parent, temporary, AT_REMOVEDIR);
    return r;
}

/* Cuts the path at `slash` for one call. */
static int open_parent(sf_station *s, char *slash)
{
    int parent;
    if (slash == NULL || slash == s->path)
        return io_open(AT_FDCWD, slash == NULL ? "." : "/", FOLDER, 0);
    *slash = '\0';
    parent = io_open(AT_FDCWD, s->path, FOLDER, 0);
    *slash = '/';
    return parent;
}

int sf_create(sf_station *s, const char *path, const sf_file *roms, size_t rom_count, const sf_file *files,
              size_t count)
{
    contents c = {roms, rom_count, files, count};
    char *slash;
    int parent, r;
    if (path_set(s, path) != SF_OK || fs_check_set(s, roms, rom_count) != SF_OK ||
        fs_check_set(s, files, count) != SF_OK)
        return fs_say(s, SF_TROUBLE, "nothing was made");
    slash = strrchr(s->path, '/');
    parent = open_parent(s, slash);
    if (parent < 0) {
        (void)fs_bad(s, 0, NULL, errno, "cannot be made in that folder");
        return fs_say(s, SF_TROUBLE, "nothing was made; make the folder first");
    }
    r = create_in(s, parent, slash != NULL ? slash + 1 : s->path, &c);
    (void)io_close(parent); /* only read from, and fsynced */
    if (r == SF_OK)
        return r;
    if (s->fd >= 0)
        (void)io_close(s->fd); /* there is trouble to report already */
    s->fd = -1;
    return fs_say(s, r, "look at that folder, or choose another name");
}
