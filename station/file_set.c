/* file_set.c - see file_set.h. */
#include "file_set.h"

#include "io.h"
#include "say.h"

#include <errno.h>
#include <fcntl.h>
#include <stdio.h>
#include <string.h>

int fs_bad(sf_station *s, unsigned long gen, const char *name, int err, const char *what)
{
    s->bad_gen = gen;
    s->bad_name = name != NULL ? name : ""; /* "": the folder itself */
    s->bad_errno = err;
    s->bad_what = what;
    return SF_TROUBLE;
}

int fs_say(const sf_station *s, int result, const char *advice)
{
    char name[SF_PATH_MAX + 64], gen[24] = "";
    if (s->bad_gen != 0)
        (void)snprintf(gen, sizeof gen, "/%lu", s->bad_gen);
    (void)snprintf(name, sizeof name, "%s%s%s%s", s->path, gen, *s->bad_name ? "/" : "", s->bad_name);
    say(name, s->bad_what, s->bad_errno, advice);
    return result;
}

/* ---- one file */

int fs_read_file(sf_station *s, folder d, sf_file *f)
{
    unsigned char more;
    size_t extra = 0;
    int r = SF_OK, fd = io_open_regular(d.fd, f->name, 0);
    if (fd < 0)
        return fs_bad(s, d.gen, f->name, errno, errno != 0 ? "cannot be opened" : "is not a regular file");
    if (io_read(fd, f->data, f->limit, &f->length) != 0 || io_read(fd, &more, 1, &extra) != 0)
        r = fs_bad(s, d.gen, f->name, errno, "cannot be read");
    else if (extra != 0)
        r = fs_bad(s, d.gen, f->name, 0, "is longer than this program allows");
    if (io_close(fd) != 0 && r == SF_OK)
        r = fs_bad(s, d.gen, f->name, errno, "cannot be closed");
    return r;
}

int fs_write_file(sf_station *s, folder d, const sf_file *f, mode_t mode)
{
    int r = SF_OK, fd = io_open(d.fd, f->name, O_WRONLY | O_CREAT | O_EXCL | O_NOFOLLOW, mode);
    if (fd < 0)
        return fs_bad(s, d.gen, f->name, errno, "cannot be made");
    if (io_write(fd, f->data, f->length) != 0 || io_sync(fd) != 0)
        r = fs_bad(s, d.gen, f->name, errno, "cannot be written");
    if (io_close(fd) != 0 && r == SF_OK)
        r = fs_bad(s, d.gen, f->name, errno, "cannot be written");
    return r;
}

/* ---- a set of files and its sums. No line is ever parsed: the line that
 * ought to be there is made again and compared. */

static size_t sum_line(char out[FS_LINE], const sf_file *f)
{
    unsigned long crc = sf_cksum(f->data, f->length);
    int n = snprintf(out, FS_LINE, "%lu %zu %s\n", crc, f->length, f->name);
    return n > 0 && n < FS_LINE ? (size_t)n : 0;
}

int fs_check_set(sf_station *s, const sf_file *f, size_t count)
{
    for (size_t i = 0; i < count; i++) {
        size_t n = strlen(f[i].name);
        if (count > SF_FILES_MAX || n < 1 || n > SF_NAME_MAX || f[i].length > f[i].limit ||
            *f[i].name < 'a' || strspn(f[i].name, "abcdefghijklmnopqrstuvwxyz0123456789.-") != n ||
            strcmp(f[i].name, "sums") == 0 || strncmp(f[i].name, "current", 7) == 0)
            return fs_bad(s, 0, f[i].name, EINVAL, "was given wrongly by the program");
    }
    return SF_OK;
}

int fs_read_sums(sf_station *s, folder d, sums_text sums)
{
    sf_file f = {"sums", (unsigned char *)sums, 0, SF_SUMS_MAX, 0};
    if (fs_read_file(s, d, &f) != SF_OK)
        return SF_TROUBLE;
    sums[f.length] = '\0';
    return strlen(sums) == f.length ? SF_OK : fs_bad(s, d.gen, "sums", 0, "is not text");
}

int fs_read_set(sf_station *s, folder d, sf_file *f, size_t count, const char *sums)
{
    for (size_t i = 0; i < count; i++) {
        char line[FS_LINE];
        size_t n;
        f[i].length = 0;
        if (f[i].late && *sums == '\0')
            continue;
        if (fs_read_file(s, d, &f[i]) != SF_OK)
            return SF_TROUBLE;
        n = sum_line(line, &f[i]);
        if (strncmp(sums, line, n) != 0)
            return fs_bad(s, d.gen, f[i].name, 0, "does not have the length and sum that sums says");
        sums += n;
    }
    return *sums == '\0' ? SF_OK : fs_bad(s, d.gen, "sums", 0, "lists a file that this program does not know");
}

int fs_write_set(sf_station *s, folder d, const sf_file *f, size_t count, sums_text sums)
{
    sf_file list = {"sums", (unsigned char *)sums, 0, SF_SUMS_MAX, 0};
    for (size_t i = 0; i < count; i++) {
        char line[FS_LINE];
        size_t n = sum_line(line, &f[i]);
        if (f[i].late && f[i].length == 0)
            continue;
        if (fs_write_file(s, d, &f[i], 0444) != SF_OK)
            return SF_TROUBLE;
        memcpy(sums + list.length, line, n);
        list.length += n;
    }
    sums[list.length] = '\0';
    if (fs_write_file(s, d, &list, 0444) != SF_OK)
        return SF_TROUBLE;
    return io_sync(d.fd) == 0 ? SF_OK : fs_bad(s, d.gen, NULL, errno, "cannot be written");
}
