/* named.c - see named.h. */
#include "named.h"

#include "input.h"
#include "io.h"
#include "say.h"

#include <errno.h>
#include <fcntl.h>
#include <string.h>

int named_string(char out[NAMED_MAX], uint64_t from, uint64_t to)
{
    size_t length, count;
    const uint8_t *line = input_line(&length);
    if (from >= to || to > length || to >= NAMED_MAX) {
        say("the line", "has no name there", 0, "this is a fault of the program");
        return -1;
    }
    count = (size_t)(to - from);
    memcpy(out, line + from, count);
    out[count] = '\0';
    if (strlen(out) == count)
        return 0;
    say(out, "a name cannot have a NUL byte", 0, "give another");
    return -1;
}

int named_read(uint64_t from, uint64_t to, uint8_t *data, size_t limit, size_t *length)
{
    char name[NAMED_MAX];
    int fd, r;
    if (named_string(name, from, to) != 0)
        return -1;
    fd = io_open_regular(AT_FDCWD, name, 1);
    if (fd < 0) {
        say(name, errno != 0 ? "cannot be opened" : "is not a regular file", errno, "check the name");
        return -1;
    }
    r = io_read(fd, data, limit, length);
    if (r != 0)
        say(name, "cannot be read", errno, "check the disk, or give another file");
    (void)io_close(fd); /* only read from */
    return r;
}
