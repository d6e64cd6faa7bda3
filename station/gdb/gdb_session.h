/* gdb_session.h - one session of gdb with a station. */
#ifndef GDB_SESSION_H
#define GDB_SESSION_H

#include "wants.h"

/* The station is loaded. Gives the exit status. */
int gdb_session_run(station *s);

#endif
