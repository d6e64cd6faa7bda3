/* session.h - one session with a station. */
#ifndef SESSION_H
#define SESSION_H

#include "wants.h"

/* The station is loaded, or `s->files.fd` is -1 and there is none yet. Gives the
 * exit status. */
int session_run(station *s, int on_terminal, int one_command);

#endif
