/* say.c - see say.h. */
#include "say.h"

#include <stdio.h>
#include <string.h>

enum { LINE = 4096 + 1024 }; /* a path and what is said about it */

void say(const char *name, const char *what, int err, const char *advice)
{
    char line[LINE];
    const char *reason = err != 0 ? strerror(err) : "";
    (void)snprintf(line, sizeof line, "%s: %s: %s%s%s%s; %s", PROGRAM, name, what,
                   *reason ? " (" : "", reason, *reason ? ")" : "", advice);
    for (char *p = line; *p != '\0'; p++) /* a name may hold anything; one line stays one line */
        if ((unsigned char)*p < ' ' || *p == 127)
            *p = '?';
    (void)fprintf(stderr, "%s\n", line); /* nowhere to report a failure to report */
}
