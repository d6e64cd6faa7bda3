/* say.h - one line on standard error about a file: what is wrong with it and
 * what to do. */
#ifndef SAY_H
#define SAY_H

#define PROGRAM "lavushmir" /* what every such line begins with */

/* `name`: the file or folder; `err`: the system's reason, 0 where it has none. */
void say(const char *name, const char *what, int err, const char *advice);

#endif
