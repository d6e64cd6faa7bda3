/* current.c - the file `current` of a station: see generation.h. */
#include "generation.h"

#include "io.h"

#include <errno.h>
#include <stdio.h>
#include <string.h>

enum { GEN_DIGITS = 9 };

static size_t current_line(char out[FS_LINE], unsigned long gen, const char *sums)
{
    size_t length = strlen(sums);
    unsigned long crc = sf_cksum((const unsigned char *)sums, length);
    int n = snprintf(out, FS_LINE, "%lu %lu %zu\n", gen, crc, length);
    return n > 0 && n < FS_LINE ? (size_t)n : 0;
}

int current_read(sf_station *s, unsigned long *gen, current_text text)
{
    folder d = {s->fd, 0};
    sf_file f = {"current", (unsigned char *)text, 0, CURRENT_MAX, 0};
    size_t i;
    if (fs_read_file(s, d, &f) != SF_OK)
        return SF_TROUBLE;
    text[f.length] = '\0';
    for (i = 0, *gen = 0; i < GEN_DIGITS && text[i] >= '0' && text[i] <= '9'; i++)
        *gen = *gen * 10 + (unsigned long)(text[i] - '0');
    if (*gen == 0 || text[0] == '0' || (text[i] != ' ' && text[i] != '\n') || strcspn(text, "\n") + 1 != f.length)
        return fs_bad(s, 0, f.name, 0, "is not one line with the number of a generation");
    return SF_OK;
}

int current_check(sf_station *s, const current_text text, unsigned long gen, const char *sums)
{
    char line[FS_LINE];
    size_t n = current_line(line, gen, sums);
    if (text[strspn(text, "0123456789")] == '\n' || strncmp(text, line, n + 1) == 0)
        return SF_OK;
    return fs_bad(s, gen, "sums", 0, "is not the one that current speaks of");
}

/* The first fsync of the station puts the name of the new folder on the disk
 * before `current` can speak of it. */
int current_commit(sf_station *s, unsigned long gen, const char *sums)
{
    char line[FS_LINE];
    folder d = {s->fd, 0};
    sf_file f = {"current.new", (unsigned char *)line, current_line(line, gen, sums), FS_LINE, 0};
    if (io_unlink(s->fd, f.name) != 0)
        return fs_bad(s, 0, f.name, errno, "is in the way of the next save");
    if (fs_write_file(s, d, &f, 0644) != SF_OK)
        return SF_TROUBLE;
    if (io_sync(s->fd) != 0)
        return fs_bad(s, 0, NULL, errno, "cannot be written");
    if (renameat(s->fd, f.name, s->fd, "current") != 0)
        return fs_bad(s, 0, "current", errno, "cannot be replaced");
    s->generation = gen;
    return io_sync(s->fd) == 0 ? SF_OK : fs_bad(s, 0, NULL, errno, "was saved, but a power cut may undo it");
}
