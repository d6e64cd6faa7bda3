/* io.c - see io.h. */
#include "io.h"

#include <errno.h>
#include <fcntl.h>
#include <sys/stat.h>
#include <unistd.h>

#define ONCE_MAX ((size_t)1 << 30) /* for one call; far below SSIZE_MAX */

int io_open(int dir, const char *name, int flags, mode_t mode)
{
    int fd;
    do
        fd = openat(dir, name, flags | O_CLOEXEC, mode);
    while (fd < 0 && errno == EINTR);
    return fd;
}

int io_open_regular(int dir, const char *name, int follow)
{
    struct stat st;
    int fd, flags = O_RDONLY | O_NONBLOCK | O_NOCTTY | (follow ? 0 : O_NOFOLLOW);
    /* Looked at before it is opened: to open a device can already do harm. */
    if (fstatat(dir, name, &st, follow ? 0 : AT_SYMLINK_NOFOLLOW) != 0)
        return -1;
    fd = S_ISREG(st.st_mode) ? io_open(dir, name, flags, 0) : -1;
    if (fd >= 0 && (fstat(fd, &st) != 0 || !S_ISREG(st.st_mode))) {
        (void)io_close(fd); /* it is refused anyway */
        fd = -1;
        st.st_mode = 0;
    }
    if (!S_ISREG(st.st_mode))
        errno = 0;
    return fd;
}

int io_read(int fd, unsigned char *data, size_t length, size_t *got)
{
    *got = 0;
    while (*got < length) {
        size_t want = length - *got;
        ssize_t n = read(fd, data + *got, want < ONCE_MAX ? want : ONCE_MAX);
        if (n == 0)
            break;
        if (n > 0)
            *got += (size_t)n;
        else if (errno != EINTR)
            return -1;
    }
    return 0;
}

int io_write(int fd, const unsigned char *data, size_t length)
{
    while (length > 0) {
        ssize_t n = write(fd, data, length < ONCE_MAX ? length : ONCE_MAX);
        if (n > 0) {
            data += n;
            length -= (size_t)n;
        } else if (n == 0) { /* never promised not to happen; must not loop */
            errno = EIO;
            return -1;
        } else if (errno != EINTR) {
            return -1;
        }
    }
    return 0;
}

int io_sync(int fd)
{
    int r;
    do
        r = fsync(fd);
    while (r != 0 && errno == EINTR);
    return r;
}

/* Never repeated: after EINTR the descriptor is gone on Linux, and what was
 * written has been fsynced before. */
int io_close(int fd)
{
    return close(fd) != 0 && errno != EINTR ? -1 : 0;
}

int io_unlink(int dir, const char *name)
{
    return unlinkat(dir, name, 0) != 0 && errno != ENOENT ? -1 : 0;
}
