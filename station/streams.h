/* streams.h - the standard streams of a program. */
#ifndef STREAMS_H
#define STREAMS_H

/* A file must not get the number of a standard stream that is closed: nothing
 * is read from such a stream, and a write to it fails. */
void streams_hold(void);

#endif
