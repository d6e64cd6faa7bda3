/* io.h - system calls with EINTR and short transfers taken care of. All give
 * -1 with errno set on failure. */
#ifndef IO_H
#define IO_H

#include <stddef.h>
#include <sys/types.h>

int io_open(int dir, const char *name, int flags, mode_t mode);

/* Only a regular file is opened, to read; errno 0: it is something else.
 * With `follow` 0 a link is something else too. */
int io_open_regular(int dir, const char *name, int follow);

int io_read(int fd, unsigned char *data, size_t length, size_t *got); /* short only at the end */
int io_write(int fd, const unsigned char *data, size_t length);
int io_sync(int fd);
int io_close(int fd);
int io_unlink(int dir, const char *name); /* already gone is fine */

#endif
