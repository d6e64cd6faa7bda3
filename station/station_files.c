/* station_files.c - open, load, save and restore: see station_files.h. */
#include "station_files.h"

#include "generation.h"
#include "io.h"
#include "say.h"
#include "station_path.h"

#include <errno.h>
#include <string.h>
#include <sys/file.h>

#define GEN_MAX 999999999UL
#define STANDS "the last save stands; remove the cause and try again"
#define NUMBER "write the number of the newest folder beside it into it and try again"
#define BACKUP "put the number of a whole generation into current, or the station back from a backup copy"

int sf_open(sf_station *s, const char *path)
{
    int busy;
    if (path_set(s, path) != SF_OK)
        return fs_say(s, SF_TROUBLE, "give another");
    s->fd = io_open(AT_FDCWD, s->path, FOLDER, 0);
    if (s->fd < 0) {
        (void)fs_bad(s, 0, NULL, errno, "cannot be opened as a station");
        return fs_say(s, SF_TROUBLE, "check the path");
    }
    if (flock(s->fd, LOCK_EX | LOCK_NB) == 0)
        return SF_OK;
    busy = errno == EWOULDBLOCK;
    (void)fs_bad(s, 0, NULL, busy ? 0 : errno, busy ? "is in use by another program" : "cannot be locked");
    (void)io_close(s->fd); /* nothing was written through it */
    s->fd = -1;
    return busy ? fs_say(s, SF_BUSY, "end that one first") : fs_say(s, SF_TROUBLE, "keep the station on a local disk");
}

int sf_close(sf_station *s)
{
    int fd = s->fd;
    s->fd = -1;
    if (io_close(fd) == 0)
        return SF_OK;
    (void)fs_bad(s, 0, NULL, errno, "cannot be closed");
    return fs_say(s, SF_TROUBLE, "every finished save is safe");
}

static void forget(sf_file *f, size_t count)
{
    for (size_t i = 0; i < count; i++)
        f[i].length = 0;
}

static const char *load_advice(sf_station *s)
{
    if (s->bad_errno == EACCES)
        return "give yourself the right to read it (chmod, chown)";
    if (s->bad_gen != 0)
        return generation_is_there(s, s->bad_gen - 1)
                   ? "to go back to the save before it: " PROGRAM " --restore STATION" : BACKUP;
    return strcmp(s->bad_name, "current") == 0 ? NUMBER : "put the ROM files and their sums back from a copy";
}

int sf_load(sf_station *s, sf_file *roms, size_t rom_count, sf_file *files, size_t count)
{
    sums_text sums;
    current_text text;
    folder d = {s->fd, 0};
    unsigned long gen = 0;
    if (current_read(s, &gen, text) == SF_OK && generation_read(s, gen, files, count, text) == SF_OK &&
        fs_read_sums(s, d, sums) == SF_OK && fs_read_set(s, d, roms, rom_count, sums) == SF_OK) {
        s->generation = gen;
        return SF_OK;
    }
    forget(roms, rom_count);
    forget(files, count);
    return fs_say(s, SF_TROUBLE, load_advice(s));
}

/* Oldest first, so that a crash leaves no gap that would hide the rest. */
static int remove_older(sf_station *s, unsigned long keep, const sf_file *f, size_t count)
{
    unsigned long g = keep;
    int r = SF_OK;
    while (generation_is_there(s, g - 1))
        g--;
    for (; g < keep; g++)
        if (generation_remove(s, g, f, count) != 0)
            r = fs_bad(s, g, NULL, errno, "is old and cannot be removed");
    return r == SF_OK ? r : fs_say(s, SF_OK, "the new save is safe; this folder may be deleted");
}

static int save_after(sf_station *s, unsigned long gen, const sf_file *f, size_t count)
{
    sums_text sums;
    int r;
    if (gen >= GEN_MAX)
        return fs_bad(s, 0, "current", 0, "has reached the highest number");
    r = generation_make(s, gen + 1, f, count, sums);
    if (r != SF_OK)
        (void)generation_remove(s, gen + 1, f, count); /* gives space back; if not, the next save does */
    else if ((r = current_commit(s, gen + 1, sums)) == SF_OK)
        r = remove_older(s, gen, f, count);
    return r;
}

/* A number that this session does not know must prove itself, or a damaged
 * `current` would choose which folders are removed. */
static int is_known(sf_station *s, unsigned long gen, const current_text text)
{
    sums_text sums;
    folder d;
    int r;
    if (gen == s->generation)
        return SF_OK;
    d = generation_open(s, gen, sums);
    if (d.fd < 0)
        return SF_TROUBLE;
    r = current_check(s, text, gen, sums);
    (void)io_close(d.fd); /* only read from */
    return r;
}

int sf_save(sf_station *s, const sf_file *files, size_t count)
{
    current_text text;
    unsigned long gen = 0;
    if (fs_check_set(s, files, count) != SF_OK)
        return fs_say(s, SF_TROUBLE, STANDS);
    if (current_read(s, &gen, text) != SF_OK)
        return fs_say(s, SF_TROUBLE, NUMBER);
    if (is_known(s, gen, text) != SF_OK || save_after(s, gen, files, count) != SF_OK)
        return fs_say(s, SF_TROUBLE, STANDS);
    return SF_OK;
}

/* Gives the number of the present one; on trouble says so. */
static int read_before(sf_station *s, unsigned long *gen, sf_file *files, size_t count)
{
    current_text text;
    const char *advice = BACKUP;
    if (current_read(s, gen, text) != SF_OK)
        advice = NUMBER;
    else if (*gen == 1)
        (void)fs_bad(s, 0, NULL, 0, "has no save before the present one");
    else if (generation_read(s, *gen - 1, files, count, NULL) == SF_OK)
        return SF_OK;
    forget(files, count);
    return fs_say(s, SF_TROUBLE, advice);
}

int sf_load_before(sf_station *s, sf_file *files, size_t count)
{
    unsigned long gen = 0;
    return read_before(s, &gen, files, count);
}

int sf_restore(sf_station *s, sf_file *files, size_t count)
{
    unsigned long gen = 0;
    if (read_before(s, &gen, files, count) != SF_OK)
        return SF_TROUBLE;
    if (save_after(s, gen, files, count) == SF_OK)
        return SF_OK;
    forget(files, count);
    return fs_say(s, SF_TROUBLE, STANDS);
}
