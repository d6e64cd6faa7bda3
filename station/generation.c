/* generation.c - see generation.h. */
#include "generation.h"

#include "io.h"

#include <errno.h>
#include <stdio.h>
#include <sys/stat.h>
#include <unistd.h>

static const char *number(sf_station *s, unsigned long gen)
{
    (void)snprintf(s->number, sizeof s->number, "%lu", gen);
    return s->number;
}

int generation_is_there(sf_station *s, unsigned long gen)
{
    struct stat st;
    return gen > 0 && fstatat(s->fd, number(s, gen), &st, AT_SYMLINK_NOFOLLOW) == 0 && S_ISDIR(st.st_mode);
}

int generation_remove(sf_station *s, unsigned long gen, const sf_file *f, size_t count)
{
    int r, fd = io_open(s->fd, number(s, gen), FOLDER | O_NOFOLLOW, 0);
    if (fd < 0)
        return errno == ENOENT ? 0 : -1;
    r = io_unlink(fd, "sums");
    for (size_t i = 0; r == 0 && i < count; i++)
        r = io_unlink(fd, f[i].name);
    if (io_close(fd) != 0)
        r = -1;
    return r == 0 ? unlinkat(s->fd, number(s, gen), AT_REMOVEDIR) : r;
}

int generation_make(sf_station *s, unsigned long gen, const sf_file *f, size_t count, sums_text sums)
{
    folder d = {-1, gen};
    int r;
    if (generation_remove(s, gen, f, count) != 0)
        return fs_bad(s, gen, NULL, errno, "is in the way of the next save");
    if (mkdirat(s->fd, number(s, gen), 0777) == 0)
        d.fd = io_open(s->fd, number(s, gen), FOLDER | O_NOFOLLOW, 0);
    if (d.fd < 0)
        return fs_bad(s, gen, NULL, errno, "cannot be made");
    r = fs_write_set(s, d, f, count, sums);
    if (io_close(d.fd) != 0 && r == SF_OK)
        r = fs_bad(s, gen, NULL, errno, "cannot be written");
    return r;
}

folder generation_open(sf_station *s, unsigned long gen, sums_text sums)
{
    folder d = {io_open(s->fd, number(s, gen), FOLDER | O_NOFOLLOW, 0), gen};
    if (d.fd < 0) {
        (void)fs_bad(s, gen, NULL, errno, "cannot be opened as a folder");
    } else if (fs_read_sums(s, d, sums) != SF_OK) {
        (void)io_close(d.fd); /* there is trouble to report already */
        d.fd = -1;
    }
    return d;
}

int generation_read(sf_station *s, unsigned long gen, sf_file *f, size_t count, const char *text)
{
    sums_text sums;
    folder d = generation_open(s, gen, sums);
    int r = SF_TROUBLE;
    if (d.fd < 0)
        return r;
    if (text == NULL || current_check(s, text, gen, sums) == SF_OK)
        r = fs_read_set(s, d, f, count, sums);
    if (io_close(d.fd) != 0 && r == SF_OK)
        r = fs_bad(s, gen, NULL, errno, "cannot be closed");
    return r;
}
